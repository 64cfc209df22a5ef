//! The words of a description.

use crate::mistake::{Mistake, Position};
use crate::words::named;
use std::collections::HashSet;
use std::iter::Peekable;
use std::str::Chars;

/// A word of a description.
#[derive(Clone, Debug, PartialEq, Eq)]
pub enum Token {
    /// A name or one of the format's own words.
    Word(String),
    /// A decimal number.
    Number(u64),
    /// A code point, written U+0061 or 'a'.
    Point(u32),
    /// A text in double quotes.
    Text(Vec<u8>),
    /// One of the signs `{ } ( ) [ ] = : . * -`.
    Sign(char),
    /// The end of the description.
    End,
}

impl Token {
    /// The token as a message calls it.
    pub fn called(&self) -> String {
        match self {
            Self::Word(word) => named(word),
            Self::Number(number) => format!("the number {number}"),
            Self::Point(point) => format!("the code point U+{point:04X}"),
            Self::Text(_) => "a text".to_string(),
            Self::Sign(sign) => format!("`{sign}`"),
            Self::End => "the end of the description".to_string(),
        }
    }
}

/// What is read of a description.
#[derive(Debug)]
pub struct Tokens {
    /// The tokens.
    pub found: Vec<(Token, Position)>,
    /// The mistakes in them.
    pub mistakes: Vec<Mistake>,
    /// The lines in which a word follows a text's closing quote at once. That is allowed, but where such
    /// a line has a mistake, the quote was most likely meant to stand in the text.
    pub tight: HashSet<usize>,
}

/// All tokens of a description, each with its place, and the mistakes in them; the last token is
/// [`Token::End`]. Where a token has a mistake, another of its kind stands for it, so that the parser can
/// go on.
pub fn tokens(description: &str) -> Tokens {
    let mut lexer = Lexer::new(description);
    let mut found = Vec::new();
    loop {
        lexer.skip_blanks();
        let at = lexer.at;
        let Some(token) = lexer.token() else {
            continue;
        };
        let last = token == Token::End;
        found.push((token, at));
        if last {
            return Tokens {
                found,
                mistakes: lexer.mistakes,
                tight: lexer.tight,
            };
        }
    }
}

/// The signs of the format.
const SIGNS: &str = "{}()[]=:.*-";

struct Lexer<'a> {
    rest: Peekable<Chars<'a>>,
    at: Position,
    mistakes: Vec<Mistake>,
    tight: HashSet<usize>,
}

impl<'a> Lexer<'a> {
    fn new(description: &'a str) -> Self {
        Self {
            rest: description.chars().peekable(),
            at: Position { line: 1, column: 1 },
            mistakes: Vec::new(),
            tight: HashSet::new(),
        }
    }

    fn mistake(&mut self, at: Position, message: impl Into<String>) {
        self.mistakes.push(Mistake::new(at, message));
    }

    fn peek(&mut self) -> Option<char> {
        self.rest.peek().copied()
    }

    fn next(&mut self) -> Option<char> {
        let character = self.rest.next()?;
        if character == '\n' {
            self.at = Position {
                line: self.at.line + 1,
                column: 1,
            };
        } else {
            self.at.column += 1;
        }
        Some(character)
    }

    fn next_if(&mut self, holds: impl Fn(char) -> bool) -> Option<char> {
        let seen = self.peek().filter(|&c| holds(c));
        if seen.is_some() {
            self.next();
        }
        seen
    }

    /// The characters from here on that hold.
    fn run(&mut self, holds: impl Fn(char) -> bool) -> String {
        let mut found = String::new();
        while let Some(character) = self.rest.peek().copied().filter(|&c| holds(c)) {
            found.push(character);
            self.next();
        }
        found
    }

    /// Skips spaces, commas, and comments from `#` to the end of the line.
    fn skip_blanks(&mut self) {
        loop {
            self.run(|c| c.is_whitespace() || c == ',');
            if self.peek() != Some('#') {
                return;
            }
            self.run(|c| c != '\n');
        }
    }

    /// The next token, unless nothing begins with what stands here.
    fn token(&mut self) -> Option<Token> {
        Some(match self.peek() {
            None => Token::End,
            Some('"') => self.text(),
            Some('\'') => self.quoted_point(),
            Some(c) if c.is_ascii_digit() => self.number(),
            Some(c) if begins_word(c) => self.word(),
            Some(c) if SIGNS.contains(c) => {
                self.next();
                Token::Sign(c)
            }
            Some(_) => {
                self.stray();
                return None;
            }
        })
    }

    /// Characters with which nothing begins: one mistake for all that stand together.
    fn stray(&mut self) {
        let at = self.at;
        let stray = self.run(begins_nothing);
        self.mistake(at, format!("{} begins nothing here", named(&stray)));
    }

    fn number(&mut self) -> Token {
        let at = self.at;
        let digits = self.run(|c| c.is_ascii_digit());
        Token::Number(digits.parse().unwrap_or_else(|_| {
            self.mistake(at, "this number is too large");
            0
        }))
    }

    fn word(&mut self) -> Token {
        let at = self.at;
        let word = self.run(|c| c.is_alphanumeric() || c == '_');
        if word == "U" && self.peek() == Some('+') {
            self.next();
            return self.point(at);
        }
        Token::Word(word)
    }

    /// The digits of a code point after `U+`. A range holds 24 bits.
    fn point(&mut self, at: Position) -> Token {
        let digits = self.run(|c| c.is_ascii_hexdigit());
        match u32::from_str_radix(&digits, 16) {
            Ok(point) if point < 1 << 24 => Token::Point(point),
            _ => {
                self.mistake(at, "a code point is U+ and one to six hexadecimal digits");
                Token::Point(0)
            }
        }
    }

    /// A code point as a character between single quotes; `\'` and `\\` stand for the quote and the
    /// backslash.
    fn quoted_point(&mut self) -> Token {
        let at = self.at;
        self.next();
        let character = match self.peek() {
            Some('\\') => {
                self.next();
                self.next_if(|c| c == '\'' || c == '\\')
            }
            _ => self.next_if(|c| c != '\'' && c != '\n'),
        };
        match (character, self.next_if(|c| c == '\'')) {
            (Some(character), Some(_)) => Token::Point(u32::from(character)),
            _ => {
                self.mistake(at, "one character stands between single quotes");
                self.run(|c| c != '\'' && c != '\n' && !c.is_whitespace());
                self.next_if(|c| c == '\'');
                Token::Point(0)
            }
        }
    }

    fn text(&mut self) -> Token {
        let start = self.at;
        self.next();
        let mut bytes = Vec::new();
        loop {
            let at = self.at;
            match self.peek() {
                None | Some('\n') => {
                    self.mistake(start, "this text has no closing quote on its line");
                    return Token::Text(bytes);
                }
                _ => match self.next() {
                    Some('"') => {
                        self.closed();
                        return Token::Text(bytes);
                    }
                    Some('\\') => self.escape(at, &mut bytes),
                    Some(c) => push(&mut bytes, c),
                    None => {}
                },
            }
        }
    }

    /// Takes down the line if a word follows a text at once.
    fn closed(&mut self) {
        if self.peek().is_some_and(char::is_alphanumeric) {
            self.tight.insert(self.at.line);
        }
    }

    /// What follows a backslash in a text.
    fn escape(&mut self, at: Position, bytes: &mut Vec<u8>) {
        match self.peek() {
            Some(c @ ('"' | '\\')) => push(bytes, c),
            Some('n') => bytes.push(b'\n'),
            Some('r') => bytes.push(b'\r'),
            Some('t') => bytes.push(b'\t'),
            Some('x') => return self.byte(at, bytes),
            Some('u') => return self.character(at, bytes),
            Some('\r' | '\n') => return drop(self.run(char::is_whitespace)),
            _ => {
                return self.mistake(
                    at,
                    r#"a backslash stands before " \ n r t, xHH, u{HEX} or the line's end"#,
                )
            }
        }
        self.next();
    }

    /// The two digits of `\xHH`.
    fn byte(&mut self, at: Position, bytes: &mut Vec<u8>) {
        self.next();
        let digit = |lexer: &mut Self| lexer.next_if(|c| c.is_ascii_hexdigit());
        let digits: String = [digit(self), digit(self)].into_iter().flatten().collect();
        match u8::from_str_radix(&digits, 16) {
            Ok(byte) if digits.len() == 2 => bytes.push(byte),
            _ => self.mistake(at, r"\x takes two hexadecimal digits"),
        }
    }

    /// The braces of `\u{HEX}`.
    fn character(&mut self, at: Position, bytes: &mut Vec<u8>) {
        self.next();
        let open = self.next_if(|c| c == '{');
        let digits = self.run(|c| c.is_ascii_hexdigit());
        let close = self.next_if(|c| c == '}');
        let character = u32::from_str_radix(&digits, 16)
            .ok()
            .and_then(char::from_u32);
        match (open, character, close) {
            (Some(_), Some(character), Some(_)) => push(bytes, character),
            _ => self.mistake(
                at,
                r"\u takes the digits of a character in braces, as \u{3B1}",
            ),
        }
    }
}

fn begins_word(character: char) -> bool {
    character.is_alphabetic() || character == '_'
}

fn begins_nothing(character: char) -> bool {
    !(begins_word(character)
        || character.is_ascii_digit()
        || character.is_whitespace()
        || SIGNS.contains(character)
        || "\"',#".contains(character))
}

fn push(bytes: &mut Vec<u8>, character: char) {
    bytes.extend_from_slice(character.encode_utf8(&mut [0; 4]).as_bytes());
}

#[cfg(test)]
mod tests;
