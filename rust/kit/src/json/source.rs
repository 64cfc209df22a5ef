//! The characters of a file, read one after the other, with their places.

use crate::mistake::Position;

const START: Position = Position { line: 1, column: 1 };

/// What of a file is still to be read.
#[derive(Clone, Copy)]
pub(super) struct Source<'a> {
    whole: &'a str,
    offset: usize,
    at: Position,
}

impl<'a> Source<'a> {
    pub(super) fn new(whole: &'a str) -> Self {
        Self {
            whole,
            offset: 0,
            at: START,
        }
    }

    /// Where the next character stands.
    pub(super) fn at(&self) -> Position {
        self.at
    }

    /// All that is still to be read.
    pub(super) fn rest(&self) -> &'a str {
        &self.whole[self.offset..]
    }

    /// Does the character just read close a text?
    pub(super) fn is_after_quote(&self) -> bool {
        self.whole[..self.offset].ends_with('"')
    }

    pub(super) fn peek(&self) -> Option<char> {
        self.rest().chars().next()
    }

    pub(super) fn next(&mut self) -> Option<char> {
        let character = self.peek()?;
        self.offset += character.len_utf8();
        if character == '\n' {
            self.at.line += 1;
            self.at.column = 1;
        } else {
            self.at.column += 1;
        }
        Some(character)
    }

    /// Takes the next character if it is this one.
    pub(super) fn accept(&mut self, character: char) -> bool {
        let seen = self.peek() == Some(character);
        if seen {
            self.next();
        }
        seen
    }

    /// The characters from here on that hold.
    pub(super) fn run(&mut self, holds: impl Fn(char) -> bool) -> &'a str {
        let start = self.offset;
        while self.peek().is_some_and(&holds) {
            self.next();
        }
        &self.whole[start..self.offset]
    }

    /// Skips the four characters that may stand between values.
    pub(super) fn skip_blanks(&mut self) {
        self.run(|c| matches!(c, ' ' | '\t' | '\n' | '\r'));
    }
}
