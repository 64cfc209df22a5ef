//! Records of eight bytes.

use crate::blocks::payload;

/// A record: kind, a, and the words b, c and d.
pub type Record = [u8; 8];

/// A record from its five fields.
#[must_use]
pub fn record(kind: u8, a: u8, b: u16, c: u16, d: u16) -> Record {
    let ([b0, b1], [c0, c1], [d0, d1]) = (b.to_le_bytes(), c.to_le_bytes(), d.to_le_bytes());
    [kind, a, b0, b1, c0, c1, d0, d1]
}

/// A text in units of eight bytes, the last zero-padded.
#[must_use]
pub fn text_units(text: &[u8]) -> Vec<Record> {
    let unit = |part: &[u8]| {
        let mut unit = [0; 8];
        unit[..part.len()].copy_from_slice(part);
        unit
    };
    text.chunks(8).map(unit).collect()
}

/// All records of a stream, those of its zero fill too. Nothing is judged.
#[must_use]
pub fn records_of(stream: &[u8]) -> Vec<Record> {
    let mut record = [0; 8];
    payload(stream)
        .chunks_exact(8)
        .map(|bytes| {
            record.copy_from_slice(bytes);
            record
        })
        .collect()
}

/// A length or count as a word.
///
/// Panics past 65,535: no layout can say it.
pub(crate) fn word(count: usize) -> u16 {
    u16::try_from(count).expect("a count of at most 65,535")
}

/// Writes the size of the thing whose head stands at `head` into the head's c.
pub(crate) fn close(records: &mut [Record], head: usize) {
    let size = word(records.len() - head).to_le_bytes();
    records[head][4..6].copy_from_slice(&size);
}
