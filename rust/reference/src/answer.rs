//! Answers: a number (0 finished), stream kind, place, steps and bytes written.

use std::fmt;

/// What a call answers, in the five fields of the paper.
#[derive(Clone, Copy, Debug, Default, PartialEq, Eq)]
pub struct Answer {
    /// 0 finished or accepted, else the number of the refusal.
    pub number: u8,
    /// The kind of the stream that offends: 1 grammar, 2 templates, 3 value; else 0.
    pub stream: u8,
    /// The block (for 2) or the record (for 4 to 8 and 10 to 12) that offends; else 0.
    pub place: usize,
    /// Steps that the walk counted.
    pub steps: u32,
    /// Bytes written into the output.
    pub bytes: usize,
}

impl fmt::Display for Answer {
    /// The line that the paper's program prints.
    fn fmt(&self, f: &mut fmt::Formatter<'_>) -> fmt::Result {
        let Answer {
            number,
            stream,
            place,
            steps,
            bytes,
        } = self;
        write!(f, "{number} {stream} {place} {steps} {bytes}")
    }
}

/// The three kinds of stream, by their number in byte 2 of a block.
#[derive(Clone, Copy, Debug, PartialEq, Eq)]
pub(crate) enum Kind {
    Grammar = 1,
    Templates = 2,
    Value = 3,
}

/// A refusal ahead of the walk: nothing is written, steps and bytes are 0.
#[derive(Clone, Copy, Debug, PartialEq, Eq)]
pub(crate) struct Refusal {
    number: u8,
    stream: u8,
    place: usize,
}

impl Refusal {
    pub(crate) fn at(number: u8, stream: Kind, place: usize) -> Self {
        let stream = stream as u8;
        Refusal {
            number,
            stream,
            place,
        }
    }

    /// Refusal 9 has kind and place 0.
    pub(crate) fn scratch() -> Self {
        Refusal {
            number: 9,
            stream: 0,
            place: 0,
        }
    }
}

impl From<Refusal> for Answer {
    fn from(refusal: Refusal) -> Answer {
        Answer {
            number: refusal.number,
            stream: refusal.stream,
            place: refusal.place,
            ..Answer::default()
        }
    }
}
