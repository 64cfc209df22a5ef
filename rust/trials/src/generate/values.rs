//! Values of a type, and values that just miss it.

use build::{Grammar, Type, Value};

use super::lexemes::{lexeme, near_lexeme};
use crate::random::Random;

/// Draws values of the types of a set.
pub(super) struct Values<'a> {
    pub(super) random: &'a mut Random,
    pub(super) grammar: &'a Grammar,
    pub(super) types: &'a [Type],
    /// One choice in so many is wrong; none where there is no number.
    pub(super) slips: Option<usize>,
    /// Values that may still be drawn before lists become empty.
    pub(super) left: usize,
}

impl Values<'_> {
    /// A value of a type.
    pub(super) fn value(&mut self, number: u16, depth: usize) -> Value {
        self.left = self.left.saturating_sub(1);
        if self.slips.is_some_and(|slips| self.random.once_in(slips)) {
            return self.slipped(number);
        }
        match &self.types[usize::from(number)] {
            Type::Text(class) => {
                let (_, class) = self.grammar.plain(*class).expect("a class");
                Value::text(lexeme(self.random, class))
            }
            Type::YesNo => Value::YesNo(self.random.once_in(2)),
            Type::List(item) => {
                let count = self.count(depth);
                Value::list((0..count).map(|_| self.value(*item, depth + 1)))
            }
            Type::Record(fields) => {
                Value::record(fields.iter().map(|&field| self.value(field, depth + 1)))
            }
            Type::Variant(cases) => {
                let number = self.random.below(cases.len());
                Value::case(number as u8, self.value(cases[number], depth + 1))
            }
        }
    }

    fn count(&mut self, depth: usize) -> usize {
        let most = *self.random.pick(&[0, 1, 2, 3, 5, 12]);
        if depth > 30 || self.left == 0 {
            0
        } else {
            most.min(self.left)
        }
    }

    /// A value that is mostly of another type.
    fn slipped(&mut self, number: u16) -> Value {
        match (&self.types[usize::from(number)], self.random.below(6)) {
            (Type::Text(class), 0..=2) => {
                let (_, class) = self.grammar.plain(*class).expect("a class");
                Value::text(near_lexeme(self.random, class))
            }
            (_, 0) => Value::text("α"),
            (_, 1) => Value::YesNo(true),
            (_, 2) => Value::list([Value::YesNo(false)]),
            (Type::Record(fields), 3) => {
                let short = &fields[..fields.len().saturating_sub(1)];
                Value::record(short.iter().map(|&field| self.value(field, 40)))
            }
            (Type::Variant(cases), 3) => self.slipped_case(cases),
            (_, 4) => Value::case(0, Value::YesNo(true)),
            _ => Value::record([Value::list([]), Value::text("")]),
        }
    }

    /// The content of one case under the number of any, or of none.
    fn slipped_case(&mut self, cases: &[u16]) -> Value {
        let number = self.random.below(cases.len() + 2);
        let content = *self.random.pick(cases);
        Value::case(number as u8, self.value(content, 40))
    }
}
