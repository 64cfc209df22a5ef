//! The file that the program reads. Its format is described where it is read, in
//! crates/vectors/src/main.rt: pieces that are put into three streams, which keep their bytes from
//! case to case, and calls.

use crate::case::{Call, Case};
use std::ops::Range;

/// The bytes that each stream has room for.
const ROOM: usize = 66_048;

/// The bytes of a head. A run shorter than this is cheaper as the bytes that it is.
const HEAD: usize = 32;

/// A call as the file says it: its number, the number that it is given, what it is lent.
struct Asked<'a> {
    call: u32,
    number: u32,
    streams: [&'a [u8]; 3],
    room: usize,
    numbers: usize,
}

/// The file of these cases.
///
/// # Panics
/// A stream of more bytes than the program has room for, or a label of more than 255.
#[must_use]
pub fn file(cases: &[Case]) -> Vec<u8> {
    let mut writer = Writer {
        file: Vec::new(),
        streams: [(); 3].map(|()| vec![0; ROOM]),
    };
    cases.iter().for_each(|case| writer.case(case));
    writer.file
}

/// The file so far, and what the program's streams then hold.
struct Writer {
    file: Vec<u8>,
    streams: [Vec<u8>; 3],
}

impl Writer {
    fn case(&mut self, case: &Case) {
        let asked = asked(&case.call);
        for (at, stream) in asked.streams.iter().enumerate() {
            self.put(at, stream);
        }
        let label = case.label.as_bytes();
        assert!(label.len() < 256, "a label of at most 255 bytes");
        let [g, t, v] = asked.streams.map(<[u8]>::len);
        let (call, number) = (asked.call as usize, asked.number as usize);
        let head = [
            call,
            label.len(),
            number,
            g,
            t,
            v,
            asked.room,
            asked.numbers,
        ];
        self.part(head, label);
    }

    /// The pieces of a stream that it does not hold yet.
    fn put(&mut self, stream: usize, bytes: &[u8]) {
        for span in changed(&self.streams[stream], bytes) {
            let new = &bytes[span.clone()];
            self.streams[stream][span.clone()].copy_from_slice(new);
            for (literal, run) in pieces(new) {
                let (first, step) = progression(&new[run.clone()]);
                let (at, count) = (span.start + literal.start, literal.len());
                let head = [stream + 1, at, count, run.len(), first, step, 0, 0];
                self.part(head, &new[literal]);
            }
        }
    }

    /// A head of eight numbers of 32 bits, and the bytes after it.
    fn part(&mut self, head: [usize; 8], bytes: &[u8]) {
        for number in head {
            let number = u32::try_from(number).expect("a number of 32 bits");
            self.file.extend(number.to_le_bytes());
        }
        self.file.extend(bytes);
    }
}

fn asked(call: &Call) -> Asked<'_> {
    let of = |call, number: u32, bytes, room| Asked {
        call,
        number,
        streams: [bytes, &[], &[]],
        room,
        numbers: 0,
    };
    match call {
        Call::Fnv1a(bytes) => of(10, 0, bytes, 0),
        Call::BlockPayload(block, start) => of(11, *start, block, 0),
        Call::Pack(kind, payload, room) => of(12, (*kind).into(), payload, *room),
        Call::Unpack(kind, stream, room) => of(13, (*kind).into(), stream, *room),
        Call::Unescape(text, room) => of(15, 0, text, *room),
        Call::Evaluate(set, lent) => Asked {
            call: 14,
            number: lent.fuel,
            streams: [&set.grammar, &set.templates, &set.value],
            room: lent.room,
            numbers: lent.numbers,
        },
    }
}

/// Where bytes differ from those that are held. What lies between two differences is cheaper put once
/// more than passed over, if it is shorter than a head.
fn changed(held: &[u8], bytes: &[u8]) -> Vec<Range<usize>> {
    let mut spans: Vec<Range<usize>> = Vec::new();
    for at in (0..bytes.len()).filter(|&at| held[at] != bytes[at]) {
        match spans.last_mut() {
            Some(span) if at - span.end < HEAD => span.end = at + 1,
            _ => spans.push(at..at + 1),
        }
    }
    spans
}

/// Where the pieces of some bytes lie: bytes as they are, and a run after them.
fn pieces(bytes: &[u8]) -> Vec<(Range<usize>, Range<usize>)> {
    let mut pieces = Vec::new();
    let (mut start, mut at) = (0, 0);
    while at < bytes.len() {
        let end = at + run_length(&bytes[at..]);
        if end - at >= HEAD {
            pieces.push((start..at, at..end));
            (start, at) = (end, end);
        } else {
            at += 1;
        }
    }
    if start < bytes.len() {
        pieces.push((start..at, at..at));
    }
    pieces
}

/// How many bytes from the first on are a run: each differs from the one before by the same number,
/// modulo 256.
fn run_length(bytes: &[u8]) -> usize {
    let (first, step) = progression(bytes);
    let expected = |at: usize| (first + at * step) as u8;
    let is_expected = |(at, byte): &(usize, &u8)| **byte == expected(*at);
    bytes.iter().enumerate().take_while(is_expected).count()
}

/// The first byte of a run, and the step to the next.
fn progression(bytes: &[u8]) -> (usize, usize) {
    match bytes {
        [] => (0, 0),
        [first] => ((*first).into(), 0),
        [first, second, ..] => ((*first).into(), second.wrapping_sub(*first).into()),
    }
}

#[cfg(test)]
mod tests {
    use super::*;

    /// Reads the file as the program does: puts the pieces, and at each call hands over its label and
    /// what it is lent of the streams.
    fn read(mut file: &[u8], mut call: impl FnMut(&[u8], [&[u8]; 3])) {
        let mut streams = [(); 3].map(|()| vec![0; ROOM]);
        while let Some((head, rest)) = file.split_at_checked(HEAD) {
            let number = |at: usize| {
                let bytes = head[4 * at..4 * at + 4].try_into().expect("four bytes");
                u32::from_le_bytes(bytes) as usize
            };
            let kind = number(0);
            if let Some(stream) = (1..=3).contains(&kind).then(|| &mut streams[kind - 1]) {
                let (at, count, length) = (number(1), number(2), number(3));
                stream[at..at + count].copy_from_slice(&rest[..count]);
                for place in 0..length {
                    let byte = (number(4) + place * number(5)) as u8;
                    stream[at + count + place] = byte;
                }
                file = &rest[count..];
            } else {
                let (label, rest) = rest.split_at(number(1));
                call(label, [0, 1, 2].map(|at| &streams[at][..number(3 + at)]));
                file = rest;
            }
        }
    }

    #[test]
    fn each_call_is_lent_its_streams() {
        let cases = crate::all();
        let mut left = cases.iter();
        read(&file(&cases), |label, streams| {
            let case = left.next().expect("a case for each call");
            assert_eq!(label, case.label.as_bytes());
            assert!(streams == asked(&case.call).streams, "{}", case.label);
        });
        assert!(left.next().is_none(), "a call for each case");
    }
}
