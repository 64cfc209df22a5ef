//! What stands where something else is due, and a helpful word about it.

use super::bare::{self, is_bare};
use super::due::Due;
use super::source::Source;
use crate::words::shown;

/// How many characters of what stands there a message shows.
pub(super) const MOST_SHOWN: usize = 40;

const TEXTS: &str = "texts stand in double quotes in JSON";

/// What stands there, as a message calls it.
pub(super) fn standing(rest: &str) -> String {
    if rest.is_empty() {
        return "the end of the file".to_string();
    }
    shown(piece(rest), MOST_SHOWN)
}

/// A helpful word, if what stands there is a common slip.
pub(super) fn word(source: &Source, due: Due) -> Option<&'static str> {
    let rest = source.rest();
    let first = rest.chars().next()?;
    if is_comment(rest) {
        return Some("JSON has no comments");
    }
    if first.is_whitespace() || matches!(first, '\u{FEFF}' | '\u{200B}') {
        return Some("only spaces, tabs and line breaks stand between the values of JSON");
    }
    if due.is_key() && (is_bare(first) || is_quote(first)) {
        return Some("keys stand in double quotes in JSON");
    }
    if is_quote(first) {
        return Some(TEXTS);
    }
    if due.is_value() {
        return is_bare(first).then(|| of_word(piece(rest)));
    }
    (is_bare(first) && source.is_after_quote()).then_some("a quote within a text is written `\\\"`")
}

/// The characters that belong together at the start.
fn piece(rest: &str) -> &str {
    let line = rest.split(['\n', '\r']).next().unwrap_or_default();
    let first = rest.chars().next().unwrap_or_default();
    let (within, end) = match first {
        _ if is_comment(rest) => (line, None),
        '"' | '\'' => (line, line[1..].find(first).map(|end| end + 2)),
        _ if is_bare(first) => (rest, rest.find(|c| !is_bare(c))),
        other => (rest, Some(other.len_utf8())),
    };
    &within[..end.unwrap_or(within.len())]
}

fn is_comment(rest: &str) -> bool {
    ["//", "/*", "#"]
        .iter()
        .any(|start| rest.starts_with(start))
}

/// Is it one of the quotes that JSON does not know?
fn is_quote(character: char) -> bool {
    "'`´‘’‚‛“”„‟«»".contains(character)
}

/// What to say of a word or number that is no value.
fn of_word(word: &str) -> &'static str {
    let unsigned = word.trim_start_matches(['+', '-', '.']);
    match unsigned.to_ascii_lowercase().as_str() {
        "true" | "yes" | "on" => "it is written `true` in JSON",
        "false" | "no" | "off" => "it is written `false` in JSON",
        "null" | "none" | "nil" | "undefined" => "it is written `null` in JSON",
        "nan" | "inf" | "infinity" => "JSON has no such number",
        _ => match bare::number(word) {
            Err(help) if is_numeric(word, unsigned) => help,
            _ => TEXTS,
        },
    }
}

/// Is a number meant?
fn is_numeric(word: &str, unsigned: &str) -> bool {
    unsigned.starts_with(|c: char| c.is_ascii_digit()) || word == "-" || word == "+"
}
