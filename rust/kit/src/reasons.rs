//! Why the proved library refuses something, in the words of the set, and by the rule that failed.
//!
//! The verdict and its place are the library's. Here the streams are read once more for a person who wants
//! to mend what is refused.

pub mod bounds;
pub mod characters;
pub mod classes;
pub mod context;
pub mod due;
pub mod escapes;
pub mod explain;
pub mod limits;
pub mod named;
pub mod names;
pub mod nodes;
pub mod paper;
pub mod position;
pub mod productions;
pub mod remarks;
pub mod room;
pub mod tables;
pub mod trace;
pub mod types;
pub mod typing;
pub mod values;
