//! Records of 8 bytes, blocks of 512, and a stream's file read leniently.

use crate::streams::checks::{wrong_check, Checks};
use feed::{Refusal, Stream, BLOCK, PAYLOAD, PAYLOAD_START};
use std::fmt;

/// The bytes of a record.
pub const RECORD: usize = 8;

/// The records of a block.
pub const BLOCK_RECORDS: usize = PAYLOAD / RECORD;

/// The most records of a stream: 128 blocks of 63.
pub const STREAM_RECORDS: usize = 128 * BLOCK_RECORDS;

/// The most cases of a variant: the number of a value's case is a byte.
pub const CASES: usize = 256;

/// A record, as its 8 bytes.
#[derive(Clone, Copy, Debug, PartialEq, Eq)]
pub struct Record(pub [u8; RECORD]);

impl Record {
    /// A record from its fields.
    pub fn new(kind: u8, a: u8, [b, c, d]: [u16; 3]) -> Self {
        let ([b0, b1], [c0, c1], [d0, d1]) = (b.to_le_bytes(), c.to_le_bytes(), d.to_le_bytes());
        Self([kind, a, b0, b1, c0, c1, d0, d1])
    }

    /// Byte 0.
    pub fn kind(self) -> u8 {
        self.0[0]
    }

    /// Byte 1.
    pub fn a(self) -> u8 {
        self.0[1]
    }

    /// The word of bytes 2 and 3.
    pub fn b(self) -> u16 {
        self.word(2)
    }

    /// The word of bytes 4 and 5.
    pub fn c(self) -> u16 {
        self.word(4)
    }

    /// The word of bytes 6 and 7.
    pub fn d(self) -> u16 {
        self.word(6)
    }

    /// The number of a production by its head: a is the low byte, c the high one. A c that is no byte makes
    /// a number that no row comes to.
    pub fn production_number(self) -> usize {
        usize::from(self.a()) + 256 * usize::from(self.c())
    }

    /// Whether all 8 bytes are zero.
    pub fn is_zero(self) -> bool {
        self.0 == [0; RECORD]
    }

    fn word(self, start: usize) -> u16 {
        u16::from_le_bytes([self.0[start], self.0[start + 1]])
    }

    /// The code point of three bytes, as a range holds it.
    pub fn point(self, start: usize) -> u32 {
        u32::from_le_bytes([self.0[start], self.0[start + 1], self.0[start + 2], 0])
    }
}

/// The records that hold a text: units of 8 bytes, the last zero-padded.
pub fn text_units(text: &[u8]) -> impl Iterator<Item = Record> + '_ {
    text.chunks(RECORD).map(|part| {
        let mut unit = [0; RECORD];
        unit[..part.len()].copy_from_slice(part);
        Record(unit)
    })
}

/// The blocks of a kind that hold these records, by the proved packing.
///
/// # Errors
/// The packing's refusal: there are none, or more than a stream holds.
pub fn packed(kind: Kind, records: &[Record]) -> Result<Vec<u8>, Refusal> {
    let payload: Vec<u8> = records.iter().flat_map(|record| record.0).collect();
    let mut blocks = vec![0; payload.len().div_ceil(PAYLOAD) * BLOCK];
    feed::pack(kind.byte(), &payload, &mut blocks).finished()?;
    Ok(blocks)
}

/// The kind of a stream.
#[derive(Clone, Copy, Debug, PartialEq, Eq)]
pub enum Kind {
    /// Kind 1.
    Grammar,
    /// Kind 2.
    Templates,
    /// Kind 3.
    Value,
}

impl Kind {
    /// All of them, in the order of their bytes.
    pub const ALL: [Self; 3] = [Self::Grammar, Self::Templates, Self::Value];

    /// The kind of the stream that an answer names.
    pub fn of_stream(stream: Stream) -> Option<Self> {
        match stream {
            Stream::Grammar => Some(Self::Grammar),
            Stream::Templates => Some(Self::Templates),
            Stream::Value => Some(Self::Value),
            Stream::Lent => None,
        }
    }

    /// The byte that stands for it in a block.
    pub fn byte(self) -> u8 {
        match self {
            Self::Grammar => 1,
            Self::Templates => 2,
            Self::Value => 3,
        }
    }

    /// The kind that a byte stands for.
    pub fn of_byte(byte: u8) -> Option<Self> {
        Self::ALL.into_iter().find(|kind| kind.byte() == byte)
    }

    /// The name of its file.
    pub fn file(self) -> &'static str {
        match self {
            Self::Grammar => "grammar.blk",
            Self::Templates => "template.blk",
            Self::Value => "value.blk",
        }
    }
}

impl fmt::Display for Kind {
    fn fmt(&self, f: &mut fmt::Formatter<'_>) -> fmt::Result {
        f.write_str(match self {
            Self::Grammar => "grammar",
            Self::Templates => "templates",
            Self::Value => "value",
        })
    }
}

/// A stream's bytes as they are found, damaged or not.
#[derive(Debug)]
pub struct Found {
    /// Its kind: the one expected, or that of the first block that has one.
    pub kind: Option<Kind>,
    /// The records of all whole blocks, damaged ones too.
    pub records: Vec<Record>,
    /// For each whole block what is wrong with it, if anything.
    pub damage: Vec<Vec<String>>,
    /// What is wrong with the stream's length, if anything.
    pub length: Option<String>,
}

impl Found {
    /// Reads whatever whole blocks the bytes hold.
    pub fn read(bytes: &[u8], expected: Option<Kind>) -> Self {
        Self::read_by(bytes, expected, Checks::Chained)
    }

    /// The same, held against checks of a kind.
    pub fn read_by(bytes: &[u8], expected: Option<Kind>, checks: Checks) -> Self {
        let blocks: Vec<&[u8]> = bytes.chunks_exact(BLOCK).collect();
        let kind = expected.or_else(|| blocks.iter().find_map(|block| Kind::of_byte(block[2])));
        let records = blocks
            .iter()
            .flat_map(|block| block_records(block))
            .collect();
        let damage = |number: usize| {
            let mut found = wrong_head(blocks[number], number, kind);
            found.extend(wrong_check(&blocks, number, checks));
            found
        };
        let damage = (0..blocks.len()).map(damage).collect();
        Self {
            kind,
            records,
            damage,
            length: wrong_length(bytes.len()),
        }
    }

    /// How many blocks are damaged.
    pub fn damaged(&self) -> usize {
        self.damage.iter().filter(|found| !found.is_empty()).count()
    }
}

fn block_records(block: &[u8]) -> impl Iterator<Item = Record> + '_ {
    block[PAYLOAD_START..PAYLOAD_START + PAYLOAD]
        .chunks_exact(RECORD)
        .map(|bytes| {
            let mut record = [0; RECORD];
            record.copy_from_slice(bytes);
            Record(record)
        })
}

fn wrong_length(length: usize) -> Option<String> {
    match length {
        0 => Some("it is empty".to_string()),
        n if n % BLOCK != 0 => Some(format!(
            "{n} bytes are no multiple of 512; the last {} are left out",
            n % BLOCK
        )),
        n if n > feed::STREAM_MOST => Some(format!("{n} bytes are above 65,536")),
        _ => None,
    }
}

/// What is wrong with the first four bytes of a block.
fn wrong_head(block: &[u8], number: usize, kind: Option<Kind>) -> Vec<String> {
    let mut found = Vec::new();
    let own = usize::from(u16::from_le_bytes([block[0], block[1]]));
    if own != number {
        found.push(format!("its number is {own}, not {number}"));
    }
    if kind.map(Kind::byte) != Some(block[2]) {
        let right = kind.map_or_else(|| "1 to 3".to_string(), |kind| kind.byte().to_string());
        found.push(format!("its kind is {}, not {right}", block[2]));
    }
    if block[3] != 0 {
        found.push(format!("byte 3 is {}, not zero", block[3]));
    }
    found
}

#[cfg(test)]
mod tests {
    use super::*;

    #[test]
    fn fields_of_a_record() {
        let record = Record::new(5, 6, [0x102, 0x304, 0x506]);
        assert_eq!(record.0, [5, 6, 2, 1, 4, 3, 6, 5]);
        assert_eq!((record.kind(), record.a()), (5, 6));
        assert_eq!((record.b(), record.c(), record.d()), (0x102, 0x304, 0x506));
    }

    #[test]
    fn the_number_of_a_production() {
        for (a, c, number) in [
            (0, 0, 0),
            (255, 0, 255),
            (0, 1, 256),
            (1, 1, 257),
            (187, 2, 699),
            (127, 31, 8_063),
            (255, 255, 65_535),
            (0, 256, 65_536),
            (255, 65_535, 16_777_215),
        ] {
            let head = Record::new(3, a, [7, c, 7]);
            assert_eq!(head.production_number(), number, "a {a}, c {c}");
        }
    }

    #[test]
    fn damage_is_named_block_by_block() {
        let mut blocks = [0; 3 * BLOCK];
        assert_eq!(feed::pack(2, &[1; 3 * PAYLOAD], &mut blocks).number, 0);
        blocks[BLOCK + 3] = 1;
        blocks[2 * BLOCK] = 7;
        let found = Found::read(&blocks, None);
        assert_eq!(
            (found.kind, found.damaged(), found.records.len()),
            (Some(Kind::Templates), 2, 189)
        );
        assert!(found.damage[0].is_empty());
        assert_eq!(found.damage[1][0], "byte 3 is 1, not zero");
        assert_eq!(found.damage[2][0], "its number is 7, not 2");
    }

    #[test]
    fn lengths_that_no_stream_has() {
        assert_eq!(
            Found::read(&[], None).length.as_deref(),
            Some("it is empty")
        );
        assert!(Found::read(&[1; 513], None).length.is_some());
        assert!(Found::read(&[1; 512], None).length.is_none());
        assert!(Found::read(&vec![1; 66_048], None).length.is_some());
    }
}
