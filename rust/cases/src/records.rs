//! Records in a row, and blocks, with something changed in them.

use build::{blocks, mend, Record};
use std::ops::Range;

/// The records of a stream, in order.
#[derive(Clone, Debug)]
pub struct Records(Vec<Record>);

impl From<Vec<Record>> for Records {
    fn from(records: Vec<Record>) -> Self {
        Records(records)
    }
}

impl Records {
    /// With the record at a place replaced.
    #[must_use]
    pub fn with(mut self, place: usize, record: Record) -> Self {
        self.0[place] = record;
        self
    }

    /// With these records in place of some.
    #[must_use]
    pub fn replaced(mut self, places: Range<usize>, records: Vec<Record>) -> Self {
        self.0.splice(places, records);
        self
    }

    /// With one record more.
    #[must_use]
    pub fn then(mut self, record: Record) -> Self {
        self.0.push(record);
        self
    }

    /// With so many zero records more.
    #[must_use]
    pub fn zeros(mut self, count: usize) -> Self {
        self.0.resize(self.0.len() + count, [0; 8]);
        self
    }

    /// The blocks of a kind that hold these.
    #[must_use]
    pub fn packed(&self, kind: u8) -> Vec<u8> {
        blocks(kind, &self.0)
    }
}

/// A range of code points.
#[must_use]
pub fn range(lowest: u32, highest: u32) -> Record {
    let ([l0, l1, l2, _], [h0, h1, h2, _]) = (lowest.to_le_bytes(), highest.to_le_bytes());
    [2, l0, l1, l2, h0, h1, h2, 0]
}

/// A path that is a variable.
#[must_use]
pub fn path(variable: u8) -> Record {
    [6, variable, 0, 0, 0, 0, 0, 0]
}

/// A path that is a field of a variable.
#[must_use]
pub fn step(variable: u8, field: u8) -> Record {
    [6, variable, 1, field, 0, 0, 0, 0]
}

/// Blocks of another length: cut, or with zeros after them.
#[must_use]
pub fn cut(mut stream: Vec<u8>, length: usize) -> Vec<u8> {
    stream.resize(length, 0);
    stream
}

/// Blocks with a byte set, and the checks made right again.
#[must_use]
pub fn altered(mut stream: Vec<u8>, at: usize, byte: u8) -> Vec<u8> {
    stream[at] = byte;
    mend(&mut stream);
    stream
}

/// Blocks with a byte that is not what it was, and nothing made right again.
#[must_use]
pub fn damaged(mut stream: Vec<u8>, at: usize) -> Vec<u8> {
    stream[at] ^= 1;
    stream
}
