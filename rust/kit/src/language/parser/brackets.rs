//! What stands in brackets. A bracket that is left open is told with the place where it was opened, since
//! that may be far away.

use super::{Parsed, Parser, PARTS};
use crate::language::description::{Field, Name, Text};
use crate::language::lexer::Token;
use crate::mistake::{Mistake, Position};

impl Parser {
    /// Things between two brackets.
    pub(super) fn bracketed<T>(
        &mut self,
        brackets: [char; 2],
        mut thing: impl FnMut(&mut Self) -> Parsed<T>,
    ) -> Parsed<Vec<T>> {
        let start = self.at();
        self.sign(brackets[0])?;
        let mut found = Vec::new();
        while !self.accept_sign(brackets[1]) {
            self.is_open(brackets, start)?;
            let at = self.at();
            let read = thing(self);
            found.push(read.map_err(|mistake| still_open(mistake, at, brackets[0], start))?);
        }
        Ok(found)
    }

    /// A bracket must be closed by its own, before the description or its part ends.
    fn is_open(&self, [open, close]: [char; 2], start: Position) -> Parsed<()> {
        let opener = opened(open, start);
        let (at, message) = match self.peek() {
            Token::End => (
                start,
                format!("this `{open}` is not closed before the end of the description"),
            ),
            Token::Sign(other @ (')' | ']' | '}')) => (
                self.at(),
                format!("{opener} is closed by `{close}`, not by `{other}`"),
            ),
            Token::Word(word) if PARTS.contains(&word.as_str()) && !self.is_key(open) => (
                self.at(),
                format!(
                    "{opener} is not closed before `{word}`, which begins a part and is no name"
                ),
            ),
            _ => return Ok(()),
        };
        Err(Mistake::new(at, message))
    }

    /// Whether the next word is that of a field: one that begins a part may be its name, too.
    fn is_key(&self, open: char) -> bool {
        open == '{' && self.is_labelled()
    }

    /// The name of a field or a case: a name, a word that begins a part, or any text in quotes, as a key of
    /// JSON is.
    pub(super) fn key(&mut self, what: &str) -> Parsed<Name> {
        let at = self.at();
        let word = match self.peek() {
            Token::Text(bytes) => String::from_utf8(bytes.clone())
                .map_err(|_| Mistake::new(at, format!("{what} is UTF-8")))?,
            Token::Word(word) => word.clone(),
            _ => return self.expected(what),
        };
        self.take();
        Ok(Name { word, at })
    }

    /// `(PARAMETER..)`, each as `NAME: TYPE`. An `of` that is no parameter's name comes behind them.
    pub(super) fn parameters(&mut self) -> Parsed<Vec<Field>> {
        let start = self.at();
        self.bracketed(['(', ')'], |parser| {
            if parser.sees_word("of") && !parser.is_labelled() {
                let message = format!("{} is not closed before `of`", opened('(', start));
                return Err(Mistake::new(parser.at(), message));
            }
            let name = parser.name("a parameter's name")?;
            parser.typed(name)
        })
    }

    /// Whether a colon follows the next word.
    pub(super) fn is_labelled(&self) -> bool {
        matches!(self.tokens.get(self.next + 1), Some((Token::Sign(':'), _)))
    }

    /// `("text")` after a repetition, if it has a separator.
    pub(super) fn separator(&mut self) -> Parsed<Option<Text>> {
        let start = self.at();
        if !self.accept_sign('(') {
            return Ok(None);
        }
        let text = self.text()?;
        if !self.accept_sign(')') {
            let (opener, here) = (opened('(', start), self.peek().called());
            let message = format!("`)` is expected here, not {here}: {opener} is not closed");
            return Err(Mistake::new(self.at(), message));
        }
        Ok(Some(text))
    }
}

fn opened(open: char, start: Position) -> String {
    let Position { line, column } = start;
    format!("the `{open}` at line {line}, column {column}")
}

/// A mistake of what begins within brackets, with the bracket if that stands on an earlier line: most
/// likely it should have been closed.
fn still_open(mistake: Mistake, at: Position, open: char, start: Position) -> Mistake {
    match mistake.at == at && mistake.remarks.is_empty() && start.line < at.line {
        true => mistake.with(vec![format!("{} is still open here", opened(open, start))]),
        false => mistake,
    }
}
