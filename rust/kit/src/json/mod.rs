//! Reads JSON (RFC 8259), and writes its texts.
//!
//! Every value and every key keeps its place, so that a mistake found later has its line and column.

mod bare;
mod due;
mod reader;
mod slips;
mod source;
mod text;

#[cfg(test)]
mod tests;

use crate::decoded::decoded;
use crate::mistake::{Mistake, Position};

/// How deep arrays and objects may nest.
pub const MOST_DEEP: usize = 300;

/// A JSON value, and where it stands.
#[derive(Clone, Debug, PartialEq, Eq)]
pub struct Json {
    /// Where it begins.
    pub at: Position,
    /// What it is.
    pub form: Form,
}

/// What a JSON value is.
#[derive(Clone, Debug, PartialEq, Eq)]
pub enum Form {
    /// `null`.
    Null,
    /// `true` or `false`.
    Flag(bool),
    /// A number, as it is written.
    Number(String),
    /// A text, without its quotes and escapes.
    Text(String),
    /// The values of an array.
    List(Vec<Json>),
    /// The keys of an object and their values, in their order; no key stands twice.
    Object(Vec<(Key, Json)>),
}

/// A key of an object, and where it stands.
#[derive(Clone, Debug, PartialEq, Eq)]
pub struct Key {
    /// The key, without its quotes and escapes.
    pub word: String,
    /// Where its quote is.
    pub at: Position,
}

impl Json {
    /// What it is, as a message calls it.
    pub fn called(&self) -> &'static str {
        match self.form {
            Form::Null => "null",
            Form::Flag(true) => "true",
            Form::Flag(false) => "false",
            Form::Number(_) => "a number",
            Form::Text(_) => "a text",
            Form::List(_) => "an array",
            Form::Object(_) => "an object",
        }
    }
}

/// Reads the one value of a JSON file.
///
/// # Errors
/// The first mistake. Bytes that are no UTF-8 come before all others.
pub fn parse(bytes: &[u8]) -> Result<Json, Mistake> {
    reader::Reader::new(decoded(bytes)?).document()
}

/// A text as JSON writes it, with its quotes: controls, `"` and `\` are escaped, all else is as it is.
pub fn quoted(text: &str) -> String {
    let mut quote = String::with_capacity(text.len() + 2);
    quote.push('"');
    for character in text.chars() {
        match character {
            '"' | '\\' => quote.extend(['\\', character]),
            '\0'..='\x1F' => quote.push_str(&text::control(character)),
            other => quote.push(other),
        }
    }
    quote.push('"');
    quote
}
