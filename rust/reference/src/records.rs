//! Records: eight bytes each; texts in units behind their head; sizes; the tail of zero records.

use crate::blocks::{payload, BLOCK, PAYLOAD};

const RECORD: usize = 8;

/// Fewer zero records than this may follow the last thing.
const TAIL: usize = 63;

/// A layout is broken: refusal 3, whose place is always 0.
#[derive(Clone, Copy, Debug, PartialEq, Eq)]
pub(crate) struct Broken;

/// `Ok` if the layout asks for just this.
pub(crate) fn ask(holds: bool) -> Result<(), Broken> {
    holds.then_some(()).ok_or(Broken)
}

/// One record. Its fields overlap as the paper says: bytes 1 to 7, or a and the words b, c, d.
#[derive(Clone, Copy, Debug)]
pub(crate) struct Record(pub [u8; RECORD]);

impl Record {
    pub(crate) fn kind(self) -> u8 {
        self.0[0]
    }

    pub(crate) fn a(self) -> u8 {
        self.0[1]
    }

    pub(crate) fn b(self) -> u16 {
        self.word(2)
    }

    pub(crate) fn c(self) -> u16 {
        self.word(4)
    }

    pub(crate) fn d(self) -> u16 {
        self.word(6)
    }

    fn word(self, at: usize) -> u16 {
        u16::from_le_bytes([self.0[at], self.0[at + 1]])
    }
}

/// All records of a stream in one row: its blocks' payloads put together.
pub(crate) struct Records {
    bytes: Vec<u8>,
}

impl Records {
    /// The records of a stream whose blocks have been judged.
    pub(crate) fn of(stream: &[u8]) -> Self {
        let mut bytes = Vec::with_capacity(stream.len() / BLOCK * PAYLOAD);
        for block in stream.chunks_exact(BLOCK) {
            bytes.extend_from_slice(payload(block));
        }
        Records { bytes }
    }

    /// Reads the records from the first one on.
    pub(crate) fn reader(&self) -> Reader<'_> {
        Reader {
            bytes: &self.bytes,
            place: 0,
        }
    }
}

/// Goes through the records of a stream in order.
pub(crate) struct Reader<'a> {
    bytes: &'a [u8],
    place: usize,
}

impl<'a> Reader<'a> {
    /// The index of the record that comes next.
    pub(crate) fn place(&self) -> usize {
        self.place
    }

    /// The kind of the record that comes next; past the end there is none.
    pub(crate) fn next_kind(&self) -> Option<u8> {
        self.bytes.get(self.place * RECORD).copied()
    }

    /// The next record, whatever its kind.
    pub(crate) fn record(&mut self) -> Result<Record, Broken> {
        let start = self.place * RECORD;
        let bytes = self.bytes.get(start..start + RECORD).ok_or(Broken)?;
        self.place += 1;
        bytes.try_into().map(Record).map_err(|_| Broken)
    }

    /// The next record, which must be of this kind.
    pub(crate) fn record_of(&mut self, kind: u8) -> Result<Record, Broken> {
        let record = self.record()?;
        ask(record.kind() == kind)?;
        Ok(record)
    }

    /// The text behind a head: units of eight bytes, the last zero-padded.
    pub(crate) fn text(&mut self, length: u16) -> Result<&'a [u8], Broken> {
        let units = usize::from(length).div_ceil(RECORD);
        let start = self.place * RECORD;
        let bytes = self
            .bytes
            .get(start..start + units * RECORD)
            .ok_or(Broken)?;
        let (text, padding) = bytes.split_at(usize::from(length));
        ask(padding.iter().all(|&byte| byte == 0))?;
        self.place += units;
        Ok(text)
    }

    /// The tail: after the last thing come zero records only, fewer than 63.
    pub(crate) fn finish(self) -> Result<(), Broken> {
        let tail = &self.bytes[self.place * RECORD..];
        ask(tail.len() < TAIL * RECORD && tail.iter().all(|&byte| byte == 0))
    }
}

/// The heads around the record being read, from outside in.
///
/// Layout is judged before depth, on trees that may be thousands of levels deep: so this is a list
/// and the readers of trees are loops.
#[derive(Default)]
pub(crate) struct Nesting {
    open: Vec<OpenHead>,
}

struct OpenHead {
    /// Its index in the table that is being filled.
    index: usize,
    /// Where its size says that it ends.
    end: usize,
    /// Children not yet read.
    missing: u16,
}

impl Nesting {
    /// The depth of the head that is read next; the outermost counts 1.
    pub(crate) fn depth(&self) -> usize {
        self.open.len() + 1
    }

    /// Opens a head that has been read.
    pub(crate) fn open(&mut self, index: usize, end: usize, children: u16) {
        self.open.push(OpenHead {
            index,
            end,
            missing: children,
        });
    }

    /// Closes a head all of whose children have been read; `place` must be its end.
    /// Answers its index, or `None` where a child is still missing or no head is left.
    pub(crate) fn close(&mut self, place: usize) -> Result<Option<usize>, Broken> {
        let Some(head) = self.open.pop_if(|head| head.missing == 0) else {
            return Ok(None);
        };
        ask(place == head.end)?;
        if let Some(parent) = self.open.last_mut() {
            parent.missing -= 1;
        }
        Ok(Some(head.index))
    }

    /// Whether every head has been closed.
    pub(crate) fn is_done(&self) -> bool {
        self.open.is_empty()
    }
}
