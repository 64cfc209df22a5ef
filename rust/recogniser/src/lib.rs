//! An independent recogniser: does a nonterminal of a grammar stream derive a text?
//!
//! It knows the paper's section Derivation and nothing of templates, values or the walk: an Earley
//! recogniser whose terminals are keywords (their bytes) and classes (characters of XML 1.0 one by one;
//! in an escaped class five of them are entities).

mod earley;
mod grammar;

pub use grammar::{start, Grammar};

/// Items of an Earley run; past the budget there is no verdict.
pub const BUDGET: usize = 400_000;

impl Grammar {
    /// Whether a nonterminal derives a text; `None` where that takes more than `budget` items.
    #[must_use]
    pub fn derives(&self, nonterminal: u16, text: &[u8], budget: usize) -> Option<bool> {
        earley::Run::new(self, text, budget).derives(nonterminal)
    }
}
