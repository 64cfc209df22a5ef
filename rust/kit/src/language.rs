//! The language of descriptions: its words, its tree, and the rows of its names.

pub mod description;
pub mod lexer;
pub mod parser;
pub mod rows;
