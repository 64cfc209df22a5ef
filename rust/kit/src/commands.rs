//! The commands of the kit: what each is given, what it prints, and its exit status.

mod assemble;
mod beside;
mod check;
mod dump;
mod explain;
mod lint;
mod loaded;
mod new;
mod output;
mod render;
mod repack;
mod size;
mod table;
mod value;
mod words;

pub use table::{Command, COMMANDS};
pub use words::Words;

use std::ffi::OsString;

/// What a command ends with.
#[derive(Debug, Default, PartialEq, Eq)]
pub struct Done {
    /// What it prints.
    pub out: Vec<u8>,
    /// What it says beside that.
    pub err: String,
    /// The exit status: 0 done, 1 refused, 2 bad use, or a file that can't be read or written.
    pub status: u8,
}

impl Done {
    /// All went well, and this is printed.
    pub fn fine(out: impl Into<Vec<u8>>) -> Self {
        Self {
            out: out.into(),
            ..Self::default()
        }
    }

    /// A report is printed, and it tells of something that is refused or not.
    pub fn report(out: impl Into<Vec<u8>>, fine: bool) -> Self {
        Self {
            status: u8::from(!fine),
            ..Self::fine(out)
        }
    }

    /// What was asked for is refused.
    pub fn refused(err: impl Into<String>) -> Self {
        Self {
            err: err.into(),
            status: 1,
            ..Self::default()
        }
    }

    /// A file can't be read or written.
    pub fn file(why: impl AsRef<str>) -> Self {
        Self {
            err: format!("kit: {}\n", why.as_ref()),
            status: 2,
            ..Self::default()
        }
    }
}

/// The result of a part of a command: what it found, or how the command ends.
pub type Step<T> = Result<T, Done>;

/// Runs a command, given by its words.
pub fn run(words: &[OsString]) -> Done {
    table::run(words).unwrap_or_else(|done| done)
}

/// The version of the kit.
pub const VERSION: &str = concat!("kit ", env!("CARGO_PKG_VERSION"), "\n");
