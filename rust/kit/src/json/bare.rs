//! What stands without quotes in JSON: numbers, `true`, `false` and `null`.

use super::Form;

/// Is it a character of a number or a word? None of them may follow either.
pub(super) fn is_bare(character: char) -> bool {
    character.is_alphanumeric() || "_+-.$".contains(character)
}

/// The value that a word or number is.
pub(super) fn form(word: &str) -> Option<Form> {
    match word {
        "null" => Some(Form::Null),
        "true" => Some(Form::Flag(true)),
        "false" => Some(Form::Flag(false)),
        _ => number(word).ok().map(|()| Form::Number(word.to_string())),
    }
}

/// Checks that this is a number.
///
/// # Errors
/// What of a number it has not.
pub(super) fn number(word: &str) -> Result<(), &'static str> {
    let rest = word.strip_prefix('-').unwrap_or(word);
    let rest = exponent(fraction(whole(rest)?)?)?;
    if rest.is_empty() {
        return Ok(());
    }
    Err("this is no number, and texts stand in double quotes in JSON")
}

/// What follows the digits before the point.
fn whole(word: &str) -> Result<&str, &'static str> {
    if word.starts_with('+') {
        return Err("a number has no plus sign before it");
    }
    if word.starts_with("0x") || word.starts_with("0X") {
        return Err("JSON has no hexadecimal numbers");
    }
    let (digits, rest) = digits(word);
    match digits {
        0 if rest.starts_with('.') => Err("a digit stands before the point of a number"),
        0 => Err("a digit stands after the minus sign of a number"),
        2.. if word.starts_with('0') => Err("a number has no leading zero"),
        _ => Ok(rest),
    }
}

/// What follows the fraction, if there is one.
fn fraction(word: &str) -> Result<&str, &'static str> {
    let Some(rest) = word.strip_prefix('.') else {
        return Ok(word);
    };
    match digits(rest) {
        (0, _) => Err("a digit stands after the point of a number"),
        (_, rest) => Ok(rest),
    }
}

/// What follows the exponent, if there is one.
fn exponent(word: &str) -> Result<&str, &'static str> {
    let Some(rest) = word.strip_prefix(['e', 'E']) else {
        return Ok(word);
    };
    match digits(rest.strip_prefix(['+', '-']).unwrap_or(rest)) {
        (0, _) => Err("a digit stands in the exponent of a number"),
        (_, rest) => Ok(rest),
    }
}

/// How many digits there are at the start, and what follows them.
fn digits(word: &str) -> (usize, &str) {
    let rest = word.trim_start_matches(|c: char| c.is_ascii_digit());
    (word.len() - rest.len(), rest)
}
