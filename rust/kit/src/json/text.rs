//! The texts of JSON, in double quotes.

use super::slips::MOST_SHOWN;
use super::source::Source;
use crate::mistake::{Mistake, Position};
use crate::words::shown;

/// A control character below U+0020 as JSON writes it.
pub(super) fn control(character: char) -> String {
    match character {
        '\x08' => "\\b".to_string(),
        '\x0C' => "\\f".to_string(),
        '\n' => "\\n".to_string(),
        '\r' => "\\r".to_string(),
        '\t' => "\\t".to_string(),
        other => format!("\\u{:04x}", u32::from(other)),
    }
}

/// The text whose opening quote is next.
pub(super) fn text(source: &mut Source) -> Result<String, Mistake> {
    let start = source.at();
    source.next();
    let mut found = String::new();
    loop {
        found.push_str(source.run(|c| c >= ' ' && c != '"' && c != '\\'));
        let at = source.at();
        let rest = source.rest();
        match source.next() {
            Some('"') => return Ok(found),
            Some('\\') => found.push(escape(source, start, at)?),
            None => return Err(unclosed(start)),
            Some(_) if rest.starts_with('\n') || rest.starts_with("\r\n") => {
                return Err(Mistake::new(
                    start,
                    "this text has no closing quote on its line; a line break in a text is \
                     written `\\n`",
                ))
            }
            Some(other) => return Err(raw_control(at, other)),
        }
    }
}

fn unclosed(start: Position) -> Mistake {
    Mistake::new(start, "this text has no closing quote")
}

fn raw_control(at: Position, character: char) -> Mistake {
    Mistake::new(
        at,
        format!(
            "the control character U+{:04X} is written `{}` in a text",
            u32::from(character),
            control(character)
        ),
    )
}

/// What follows a backslash at a place, in a text from a start.
fn escape(source: &mut Source, start: Position, at: Position) -> Result<char, Mistake> {
    match source.next() {
        Some(c @ ('"' | '\\' | '/')) => Ok(c),
        Some('b') => Ok('\x08'),
        Some('f') => Ok('\x0C'),
        Some('n') => Ok('\n'),
        Some('r') => Ok('\r'),
        Some('t') => Ok('\t'),
        Some('u') => character(source, start, at),
        None => Err(unclosed(start)),
        Some(other) => Err(Mistake::new(
            at,
            format!(
                "a backslash stands before one of \" \\ / b f n r t u in a text, not before {}",
                shown(other.encode_utf8(&mut [0; 4]), MOST_SHOWN)
            ),
        )),
    }
}

/// The character of one `\uHHHH`, or of two that are a surrogate pair.
fn character(source: &mut Source, start: Position, at: Position) -> Result<char, Mistake> {
    let first = unit(source, start, at)?;
    if let Some(character) = char::from_u32(first.into()) {
        return Ok(character);
    }
    let next = source.at();
    if first >= 0xDC00 || !source.rest().starts_with("\\u") {
        return Err(half(at, first));
    }
    source.next();
    source.next();
    let second = unit(source, start, next)?;
    match char::decode_utf16([first, second]).next() {
        Some(Ok(character)) => Ok(character),
        _ => Err(half(at, first)),
    }
}

/// The mistake of a surrogate without its other.
fn half(at: Position, unit: u16) -> Mistake {
    let message = if unit < 0xDC00 {
        "the first half of a character, and its second half is not after it"
    } else {
        "the second half of a character, and its first half is not before it"
    };
    Mistake::new(at, format!("`\\u{unit:04X}` is {message}"))
}

/// The four digits after `\u`.
fn unit(source: &mut Source, start: Position, at: Position) -> Result<u16, Mistake> {
    let before = source.rest();
    let mut unit = 0;
    for _ in 0..4 {
        let character = source.next().ok_or_else(|| unclosed(start))?;
        let digit = character
            .to_digit(16)
            .ok_or_else(|| no_digits(at, before))?;
        unit = unit * 16 + digit as u16;
    }
    Ok(unit)
}

/// The mistake of something else than four digits after `\u`.
fn no_digits(at: Position, rest: &str) -> Mistake {
    let end = rest.char_indices().nth(4).map_or(rest.len(), |it| it.0);
    let wrong = shown(&rest[..end], MOST_SHOWN);
    Mistake::new(
        at,
        format!("`\\u` takes four hexadecimal digits, not {wrong}"),
    )
}
