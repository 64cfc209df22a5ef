//! The cases that the proved program `vectors` runs, as data: it reads them from the file
//! `crates/vectors/data/cases` and prints a line for each, and what it prints is held to
//! `crates/vectors/stdout`. This crate makes both files. The lines come from the reference and not
//! from the machine under proof.
//!
//! | module | cases |
//! |---|---|
//! | `blocks` | check values, single blocks, packing and unpacking |
//! | `chains` | checks that start from the block before: two uploads, old checks, chances |
//! | `streams` | refusals 1 to 3, each at its edge, alone and ahead of what is tried later |
//! | `sets` | refusals 4 to 7 |
//! | `runs` | refusals 8 to 12, and runs that finish |
//! | `separators` | repetitions with a separator: layout, names, typing, runs |
//! | `escapes` | escaped classes: texts, literals, positions, layout, names; the unescape call |
//! | `admission` | characters that XML 1.0 admits: titles, literals, class tables; where it isn't asked |
//! | `productions` | more than 256 productions: their numbers, and builds of them |
//! | `variants` | variants, cases and matches: layout, names, limits, typing, runs |
//!
//! To add a case, add it to one of these, then `cargo run -p cases`.

mod admission;
mod blocks;
mod case;
mod chains;
mod escapes;
mod example;
mod expected;
mod file;
mod productions;
mod records;
mod runs;
mod separators;
mod sets;
mod streams;
mod variants;

use std::path::{Path, PathBuf};

pub use case::{Call, Case, Lent, Set};
pub use expected::stdout;
pub use file::file;

/// All cases, in the order in which they are run.
#[must_use]
pub fn all() -> Vec<Case> {
    [
        blocks::all(),
        chains::all(),
        streams::all(),
        sets::all(),
        runs::all(),
        separators::all(),
        escapes::all(),
        admission::all(),
        productions::all(),
        variants::all(),
    ]
    .concat()
}

/// The files that this crate makes, each with what is to be in it.
#[must_use]
pub fn files() -> [(PathBuf, Vec<u8>); 2] {
    let vectors = Path::new(env!("CARGO_MANIFEST_DIR")).join("../../crates/vectors");
    let cases = all();
    [
        (vectors.join("data/cases"), file(&cases)),
        (vectors.join("stdout"), stdout(&cases).into_bytes()),
    ]
}
