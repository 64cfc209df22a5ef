//! Values.

use crate::blocks::blocks;
use crate::records::{close, record, text_units, word, Record};
use crate::VALUE;

/// A value to be built.
#[derive(Clone, Debug, PartialEq, Eq)]
pub enum Value {
    /// A text.
    Text(Vec<u8>),
    /// Yes or no.
    YesNo(bool),
    /// A list of values.
    List(Vec<Value>),
    /// A record of values.
    Record(Vec<Value>),
    /// A case of a variant: its number and its content.
    Case(u8, Box<Value>),
}

impl Value {
    /// A text.
    pub fn text(text: impl Into<Vec<u8>>) -> Self {
        Value::Text(text.into())
    }

    /// A list.
    pub fn list(items: impl IntoIterator<Item = Value>) -> Self {
        Value::List(items.into_iter().collect())
    }

    /// A record.
    pub fn record(fields: impl IntoIterator<Item = Value>) -> Self {
        Value::Record(fields.into_iter().collect())
    }

    /// A case of a variant.
    #[must_use]
    pub fn case(number: u8, content: Value) -> Self {
        Value::Case(number, Box::new(content))
    }

    /// The records in order.
    ///
    /// # Panics
    /// A count, size or text's length over 65,535.
    #[must_use]
    pub fn records(&self) -> Vec<Record> {
        let mut records = Vec::new();
        self.push(&mut records);
        records
    }

    /// The packed stream.
    ///
    /// # Panics
    /// A count, size or text's length over 65,535.
    #[must_use]
    pub fn stream(&self) -> Vec<u8> {
        blocks(VALUE, &self.records())
    }

    fn push(&self, records: &mut Vec<Record>) {
        let head = records.len();
        match self {
            Value::YesNo(yes) => records.push(record(2, u8::from(*yes), 0, 0, 0)),
            Value::Text(text) => {
                records.push(record(1, 0, word(text.len()), 0, 0));
                records.extend(text_units(text));
                close(records, head);
            }
            Value::List(below) | Value::Record(below) => {
                let kind = if matches!(self, Value::List(_)) { 3 } else { 4 };
                records.push(record(kind, 0, 0, 0, word(below.len())));
                below.iter().for_each(|value| value.push(records));
                close(records, head);
            }
            Value::Case(number, content) => {
                records.push(record(5, *number, 0, 0, 0));
                content.push(records);
                close(records, head);
            }
        }
    }
}
