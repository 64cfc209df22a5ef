//! The kit for designers: from a description and its data to a feed, and to words about what is refused.
//!
//! - [`commands`] are the tool's commands, each in a file;
//! - [`language`] reads descriptions in the format of `FORMAT.md`, and [`json`] data;
//! - [`assembly`] makes streams of them, with a map of where each record comes from;
//! - [`streams`] reads streams as they are found, sound or damaged;
//! - [`reasons`] tells why the proved library refuses a set, and [`lint`] what is most likely not meant.

#![forbid(unsafe_code)]
#![deny(missing_docs)]

pub mod assembly;
pub mod commands;
pub mod decoded;
pub mod files;
pub mod json;
pub mod language;
pub mod lint;
pub mod mistake;
pub mod reasons;
pub mod streams;
pub mod words;

pub use assembly::assemble::{assemble, Streams};
pub use mistake::Mistake;
