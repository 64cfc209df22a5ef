//! Differential trials of the page machine.
//!
//! Sets are drawn and damaged at random ([`generate`], [`damage`]), called at many fuels, output
//! and scratch lengths, and two implementations of [`Machine`] are compared in all five fields of
//! every answer and in every lent byte ([`compare`]). A seed decides everything.

pub mod admission;
pub mod chains;
pub mod compare;
pub mod damage;
mod escapes;
pub mod faulty;
pub mod generate;
pub mod judging;
pub mod machine;
pub mod matching;
pub mod mutants;
pub mod numbers;
#[cfg(feature = "proved")]
pub mod proved;
pub mod random;
pub mod run;
pub mod unescaping;
mod uploads;

pub use machine::{Fields, Machine, Reference};
pub use random::Random;

/// The machine that is compared with the reference: the proved library, if it is bound.
#[cfg(feature = "proved")]
pub const SECOND: proved::Proved = proved::Proved;

/// The machine that is compared with the reference: without the proved library the reference itself,
/// which still tries the promises about every lent byte.
#[cfg(not(feature = "proved"))]
pub const SECOND: Reference = Reference;
