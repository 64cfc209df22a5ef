//! Values.

use super::{Parsed, Parser};
use crate::language::description::{Name, Value, ValueForm};
use crate::language::lexer::Token;

impl Parser {
    pub(super) fn value(&mut self) -> Parsed<Value> {
        self.deeper(|parser| {
            let at = parser.at();
            let form = parser.value_form()?;
            Ok(Value { at, form })
        })
    }

    fn value_form(&mut self) -> Parsed<ValueForm> {
        if self.sees_word("yes") || self.sees_word("no") {
            return Ok(ValueForm::YesNo(
                self.take() == Token::Word("yes".to_string()),
            ));
        }
        if self.sees_word("case") {
            self.take();
            let case = self.case()?;
            return Ok(ValueForm::Case(case, Box::new(self.value()?)));
        }
        if self.sees_sign('[') {
            let items = self.bracketed(['[', ']'], Self::value)?;
            return Ok(ValueForm::List(items));
        }
        if self.sees_sign('{') {
            let children = self.bracketed(['{', '}'], Self::child)?;
            return Ok(ValueForm::Record(children));
        }
        match self.peek() {
            Token::Text(_) => Ok(ValueForm::Text(self.text()?)),
            _ => self.expected(
                "a value (a text, `yes`, `no`, a list in [ ], a record in { } or a `case`)",
            ),
        }
    }

    /// A child of a record: a value, with a label before it or not.
    fn child(&mut self) -> Parsed<(Option<Name>, Value)> {
        if !self.is_labelled() {
            return Ok((None, self.value()?));
        }
        let label = self.key("a label")?;
        self.sign(':')?;
        Ok((Some(label), self.value()?))
    }
}
