//! The reader's tests.

mod bounds;
mod mistakes;
mod slips;
mod texts;
mod values;

use super::{parse, Form};
use crate::mistake::{Mistake, Position};

fn at(line: usize, column: usize) -> Position {
    Position { line, column }
}

/// Reads a value.
#[track_caller]
fn form(json: &str) -> Form {
    match parse(json.as_bytes()) {
        Ok(value) => value.form,
        Err(mistake) => panic!("{json}: {mistake}"),
    }
}

/// Reads a mistake.
#[track_caller]
fn says(json: impl AsRef<[u8]>, line: usize, column: usize, message: &str) {
    let json = json.as_ref();
    let mistake = parse(json).expect_err("a mistake");
    let expected = Mistake::new(at(line, column), message);
    assert_eq!(mistake, expected, "{}", String::from_utf8_lossy(json));
}
