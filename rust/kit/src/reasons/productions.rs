//! The row of a grammar's productions.

use crate::streams::record::{Record, RECORD};

/// A production of the row.
#[derive(Clone, Debug, PartialEq, Eq)]
pub struct Production {
    /// The nonterminal that it is one of.
    pub nonterminal: u16,
    /// The records of its elements' heads, keywords among them.
    pub elements: Vec<usize>,
}

/// The productions of a grammar whose layout is sound, by their numbers.
pub fn productions(grammar: &[Record]) -> Vec<Production> {
    let (mut found, mut at) = (Vec::new(), 0);
    while let Some(&head) = grammar.get(at) {
        at += 1;
        match head.kind() {
            1 => at += usize::from(head.d()),
            3 => {
                let (elements, end) = elements(grammar, at, usize::from(head.d()));
                let nonterminal = head.b();
                found.push(Production {
                    nonterminal,
                    elements,
                });
                at = end;
            }
            5 => {}
            _ => break,
        }
    }
    found
}

/// So many elements from a record on, and where the last of them ends.
fn elements(grammar: &[Record], first: usize, count: usize) -> (Vec<usize>, usize) {
    let (mut found, mut at) = (Vec::new(), first);
    while let Some(&head) = grammar.get(at).filter(|_| found.len() < count) {
        found.push(at);
        at += 1 + text_length(head).div_ceil(RECORD);
    }
    (found, at)
}

/// The bytes of an element's text: a keyword or a separator, and none for the others.
pub fn text_length(element: Record) -> usize {
    usize::from(match element.a() {
        0 => element.b(),
        4 => element.c(),
        _ => 0,
    })
}
