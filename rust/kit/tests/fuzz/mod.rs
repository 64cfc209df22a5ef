//! What the fuzzing is made of, a purpose each.

pub mod bodies;
pub mod case;
pub mod data;
pub mod descriptions;
pub mod extremes;
pub mod flags;
pub mod json;
pub mod mutate;
pub mod plan;
pub mod random;
pub mod run;
pub mod streams;
pub mod tally;
pub mod watchdog;
pub mod words;
