//! The examples of the page: the records that it shows, and what the library answers to them, changed or not.

use super::{bytes, fenced, number};

/// The examples of the page.
pub const EXAMPLES: [&str; 3] = ["examples/harbour", "more forms", "audio or video"];
/// The streams of an example, as their files are called.
pub const STREAMS: [&str; 3] = ["grammar", "template", "value"];

/// A record.
pub type Record = [u8; 8];

/// The records that the page shows of a stream, each with what it says.
pub fn shown(example: &str, stream: usize) -> Vec<(Record, String)> {
    let line = |(index, line): (usize, &String)| {
        let (first, rest) = line.trim_start().split_once(' ').expect("an index");
        assert_eq!(number(first), index, "{line}");
        let (bytes, says) = bytes(rest);
        (bytes.try_into().expect("a record's bytes"), says)
    };
    let lines = fenced(&format!("{example}/{}.blk", STREAMS[stream]));
    lines.iter().enumerate().map(line).collect()
}

/// A stream, packed by the library.
pub fn packed(kind: usize, payload: &[u8]) -> Vec<u8> {
    let mut blocks = vec![0; payload.len().div_ceil(feed::PAYLOAD) * feed::BLOCK];
    let answer = feed::pack(kind as u8, payload, &mut blocks);
    assert!(answer.finished().is_ok());
    blocks
}

/// An example of the page, and what it is evaluated with.
pub struct Run {
    /// The records of each stream.
    pub records: [Vec<Record>; 3],
    /// The length that each packed stream is cut to.
    lengths: [usize; 3],
    /// Bytes put into a packed stream: the stream, the place and the byte.
    wrong: Vec<(usize, usize, u8)>,
    /// The fuel.
    pub fuel: u32,
    output: usize,
    scratch: usize,
}

impl Run {
    /// An example as the page shows it.
    pub fn of(example: &str) -> Self {
        let records = |stream| shown(example, stream).into_iter().map(|(it, _)| it);
        Self {
            records: [0, 1, 2].map(|stream| records(stream).collect()),
            lengths: [usize::MAX; 3],
            wrong: Vec::new(),
            fuel: 1_000_000,
            output: 65_536,
            scratch: feed::SCRATCH,
        }
    }

    /// Makes one change, as the page writes it.
    pub fn change(&mut self, change: &str) {
        let (left, right) = change.split_once(" = ").expect(change);
        let words: Vec<&str> = left.split(' ').collect();
        let stream = STREAMS.iter().position(|name| *name == words[0]);
        let at = stream.unwrap_or(0);
        match words[..] {
            ["fuel"] => self.fuel = number(right) as u32,
            ["output"] => self.output = number(right),
            ["scratch"] => self.scratch = number(right),
            [_, "records"] => self.records[at].truncate(number(right)),
            [_, "length"] => self.lengths[at] = number(right),
            [_, "byte", place] => self.wrong.push((at, number(place), bytes(right).0[0])),
            [_, how @ ("insert" | "number"), place] => {
                let (inserted, place) = (bytes(right).0, number(place));
                let record = |bytes: &[u8]| bytes.try_into().expect("a record's bytes");
                let mut inserted: Vec<Record> = inserted.chunks(8).map(record).collect();
                if how == "number" {
                    count_up(&mut inserted);
                }
                self.records[at].splice(place..place, inserted);
            }
            [_, place] => self.records[at][number(place)] = bytes(right).0.try_into().expect("8"),
            _ => panic!("{change}"),
        }
        assert_eq!(stream.is_none(), words.len() == 1, "{change}");
    }

    /// The five fields that the library answers, and what it wrote.
    pub fn answer(&self) -> ([u64; 5], Vec<u8>) {
        let mut streams = [0, 1, 2].map(|at| packed(at + 1, self.records[at].as_flattened()));
        for (stream, length) in streams.iter_mut().zip(self.lengths) {
            stream.truncate(length);
        }
        for &(stream, place, byte) in &self.wrong {
            assert_ne!(streams[stream][place], byte);
            streams[stream][place] = byte;
        }
        let [grammar, templates, value] = &streams;
        let (mut output, mut scratch) = (vec![0; self.output], vec![0; self.scratch]);
        let (out, room) = (&mut output, &mut scratch);
        let answer = feed::evaluate(grammar, templates, value, self.fuel, out, room).fields();
        output.truncate(answer[4] as usize);
        (answer, output)
    }
}

/// Gives each record but the first a number one above that of the one before, low byte in a and high in c.
fn count_up(records: &mut [Record]) {
    let first = records
        .first()
        .map_or(0, |it| u16::from_le_bytes([it[1], it[4]]));
    for (record, number) in records.iter_mut().zip(first..) {
        [record[1], record[4]] = number.to_le_bytes();
    }
}

/// The first head of the page's examples with a kind, and a form where one is given: the example and
/// the record's index.
pub fn head(stream: usize, kind: u8, form: Option<u8>) -> (&'static str, usize) {
    let is = |(it, says): &(Record, String)| {
        it[0] == kind && form.is_none_or(|form| it[1] == form) && !says.starts_with("unit")
    };
    let found = |example| Some((example, shown(example, stream).iter().position(is)?));
    let head = EXAMPLES.into_iter().find_map(found);
    head.unwrap_or_else(|| panic!("{}: kind {kind}, {form:?}", STREAMS[stream]))
}

/// What an example answers with one byte of a record changed.
pub fn with_byte(stream: usize, (example, place): (&str, usize), at: usize, byte: u8) -> [u64; 5] {
    let mut run = Run::of(example);
    assert_ne!(run.records[stream][place][at], byte);
    run.records[stream][place][at] = byte;
    run.answer().0
}
