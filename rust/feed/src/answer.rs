//! What a call answers, and the refusals in plain words.

use std::error::Error;
use std::fmt;

/// What a call answers: five numbers.
#[derive(Clone, Copy, Debug, PartialEq, Eq, Hash)]
pub struct Answer {
    /// 0 if the call finished (accepted, packed, unpacked, unescaped), else the refusal's number.
    pub number: u64,
    /// The stream that a refusal is about: 1 grammar, 2 templates, 3 value; 0 for none.
    pub kind: u64,
    /// The record or block that a refusal is about, counted from 0.
    pub place: u64,
    /// The nodes visited.
    pub steps: u64,
    /// The bytes written into the output.
    pub bytes: u64,
}

/// The stream that a refusal is about.
#[derive(Clone, Copy, Debug, PartialEq, Eq, Hash)]
pub enum Stream {
    /// Kind 1.
    Grammar,
    /// Kind 2.
    Templates,
    /// Kind 3.
    Value,
    /// The bytes lent to [`pack`](crate::pack) or [`unpack`](crate::unpack), whose answers name no stream.
    Lent,
}

/// Why a call did not finish. A record is given by its index in its stream, a block by its number.
#[derive(Clone, Copy, Debug, PartialEq, Eq, Hash)]
#[non_exhaustive]
pub enum Refusal {
    /// 1: the length is zero, above 65,536 or no multiple of 512 (of a payload: not 8 to 64,512, or no
    /// multiple of 8).
    Length {
        /// The stream with that length.
        stream: Stream,
    },
    /// 2: a block has a wrong number, kind, byte 3 or check. A check starts from that of the block before
    /// it, so a block of another stream is refused here, too. Of [`pack`](crate::pack) and
    /// [`unpack`](crate::unpack) also, with block 0: the kind asked for is outside 1 to 3.
    Block {
        /// The stream that holds the block.
        stream: Stream,
        /// The block's number in it.
        block: u64,
    },
    /// 3: the records break the layout.
    Layout {
        /// The stream that holds them.
        stream: Stream,
    },
    /// 4: a node or value over 200 deep, over 8 parameters, or over 16 loops and arms of matches around a
    /// node.
    Limit {
        /// The templates or the value.
        stream: Stream,
        /// The node, value or template that is over the limit.
        record: u64,
    },
    /// 5: a thing that is named doesn't exist, or a field or case names no earlier type, an escaped class
    /// no earlier plain class, or a text type an escaped class.
    Name {
        /// The grammar or the templates.
        stream: Stream,
        /// The record that names it.
        record: u64,
    },
    /// 6: a class has least above most, or a range has lowest above highest or passes U+10FFFF.
    Class {
        /// The class or the range, in the grammar.
        record: u64,
    },
    /// 7: a typing rule fails, or a path names a variable or field that isn't there. A literal must be a
    /// [lexeme](crate#lexemes). In the position of an escaped class it is an escaped text itself, and a
    /// place has a text of the plain class. A match has one arm for each case of its variant.
    Typing {
        /// The node, in the templates; 0 if template 0 is missing or hasn't exactly one parameter.
        node: u64,
    },
    /// 8: the value isn't of its declared type. A text must be a [lexeme](crate#lexemes), and a case one
    /// that its variant has.
    ValueType {
        /// The first record of the value that fails its own rule.
        record: u64,
    },
    /// 8 of [`unescape`](crate::unescape): escaping makes the text of no well-formed UTF-8.
    NotEscaped,
    /// 9: the scratch has fewer than 4,800 numbers.
    ScratchTooShort,
    /// 10: a node is reached with all fuel used.
    FuelSpent {
        /// The node that is not visited, in the templates.
        node: u64,
    },
    /// 11: a node is reached at depth 201.
    TooDeep {
        /// The node, in the templates.
        node: u64,
    },
    /// 12: a keyword, lexeme (an escaped one with its entities) or separator passes the end of the output.
    OutputFull {
        /// The node that writes it, in the templates; of a separator the sequence.
        node: u64,
    },
    /// 12 of [`pack`](crate::pack), [`unpack`](crate::unpack) and [`unescape`](crate::unescape): what they
    /// would write doesn't fit.
    NoRoom,
    /// A number that this wrapper doesn't know.
    Unknown {
        /// The number answered.
        number: u64,
    },
}

/// What a call that finished did.
#[derive(Clone, Copy, Debug, PartialEq, Eq, Hash)]
pub struct Finished {
    /// The nodes visited.
    pub steps: u64,
    /// The bytes written into the output.
    pub bytes: u64,
}

impl Finished {
    /// The text, of the output that was lent.
    ///
    /// # Panics
    /// If `output` is shorter than the text, and so is not the output that was lent.
    #[must_use]
    pub fn of(self, output: &[u8]) -> &[u8] {
        first(self.bytes, output)
    }
}

impl Answer {
    /// An answer from its five numbers: number, kind, place, steps, bytes.
    #[must_use]
    pub fn from_fields([number, kind, place, steps, bytes]: [u64; 5]) -> Self {
        Self {
            number,
            kind,
            place,
            steps,
            bytes,
        }
    }

    /// The five numbers: number, kind, place, steps, bytes.
    #[must_use]
    pub fn fields(self) -> [u64; 5] {
        [self.number, self.kind, self.place, self.steps, self.bytes]
    }

    /// The refusal, unless the call finished.
    #[must_use]
    pub fn refusal(self) -> Option<Refusal> {
        let (stream, record) = (Stream::of_kind(self.kind), self.place);
        match self.number {
            0 => None,
            1 => Some(Refusal::Length { stream }),
            2 => Some(Refusal::Block {
                stream,
                block: record,
            }),
            3 => Some(Refusal::Layout { stream }),
            4 => Some(Refusal::Limit { stream, record }),
            5 => Some(Refusal::Name { stream, record }),
            6 => Some(Refusal::Class { record }),
            7 => Some(Refusal::Typing { node: record }),
            8 if stream == Stream::Lent => Some(Refusal::NotEscaped),
            8 => Some(Refusal::ValueType { record }),
            9 => Some(Refusal::ScratchTooShort),
            10 => Some(Refusal::FuelSpent { node: record }),
            11 => Some(Refusal::TooDeep { node: record }),
            12 if stream == Stream::Lent => Some(Refusal::NoRoom),
            12 => Some(Refusal::OutputFull { node: record }),
            number => Some(Refusal::Unknown { number }),
        }
    }

    /// What was done, or the refusal.
    ///
    /// # Errors
    /// The refusal, if the call did not finish.
    pub fn finished(self) -> Result<Finished, Refusal> {
        match self.refusal() {
            None => Ok(Finished {
                steps: self.steps,
                bytes: self.bytes,
            }),
            Some(refusal) => Err(refusal),
        }
    }

    /// The bytes written, of the output that was lent; also those of a walk that met a limit.
    ///
    /// # Panics
    /// If `output` is shorter than what was written, and so is not the output that was lent.
    #[must_use]
    pub fn written(self, output: &[u8]) -> &[u8] {
        first(self.bytes, output)
    }
}

/// The first `bytes` bytes of the output.
fn first(bytes: u64, output: &[u8]) -> &[u8] {
    usize::try_from(bytes)
        .ok()
        .and_then(|length| output.get(..length))
        .expect("the output that was lent")
}

impl Stream {
    /// The stream of a kind; one outside 1 to 3 names none.
    fn of_kind(kind: u64) -> Self {
        match kind {
            1 => Self::Grammar,
            2 => Self::Templates,
            3 => Self::Value,
            _ => Self::Lent,
        }
    }
}

impl fmt::Display for Stream {
    fn fmt(&self, f: &mut fmt::Formatter<'_>) -> fmt::Result {
        f.write_str(match self {
            Self::Grammar => "the grammar",
            Self::Templates => "the templates",
            Self::Value => "the value",
            Self::Lent => "the lent bytes",
        })
    }
}

/// The rule of [`Refusal::NotEscaped`].
const NOT_ESCAPED: &str =
    "the text is no escaped one: it has a bare & < > \" or ', a reference other than \
     &amp; &lt; &gt; &quot; &apos;, or bytes that are no well-formed UTF-8";

impl Refusal {
    /// The refusal's number.
    #[must_use]
    pub fn number(self) -> u64 {
        match self {
            Self::Length { .. } => 1,
            Self::Block { .. } => 2,
            Self::Layout { .. } => 3,
            Self::Limit { .. } => 4,
            Self::Name { .. } => 5,
            Self::Class { .. } => 6,
            Self::Typing { .. } => 7,
            Self::ValueType { .. } | Self::NotEscaped => 8,
            Self::ScratchTooShort => 9,
            Self::FuelSpent { .. } => 10,
            Self::TooDeep { .. } => 11,
            Self::OutputFull { .. } | Self::NoRoom => 12,
            Self::Unknown { number } => number,
        }
    }

    /// The rule that is broken, in plain words.
    #[must_use]
    pub fn rule(self) -> &'static str {
        match self {
            Self::Length { stream: Stream::Lent } => "the length is none that a stream or a payload may have",
            Self::Length { .. } => "the length is zero, above 65,536 or no multiple of 512",
            Self::Block { stream: Stream::Lent, block: 0 } => {
                "the kind is outside 1 to 3, or block 0 has a wrong number, kind, byte 3 or check"
            }
            Self::Block { .. } => "a block has a wrong number, kind, byte 3 or check",
            Self::Layout { .. } => "the records break the layout",
            Self::Limit { stream: Stream::Value, .. } => "a value is over 200 deep",
            Self::Limit { .. } => {
                "a template node is over 200 deep, or a template has over 8 parameters, \
                 or over 16 loops stand around a node"
            }
            Self::Name { stream: Stream::Grammar, .. } => {
                "a class or nonterminal named doesn't exist, or an escaped class names no earlier plain class"
            }
            Self::Name { .. } => {
                "a class, nonterminal, production, template or type named doesn't exist, \
                 or a field names no earlier type, or a text type names an escaped class"
            }
            Self::Class { .. } => {
                "a class has least above most, or a range has lowest above highest or passes U+10FFFF"
            }
            Self::Typing { node: 0 } => "template 0 is missing or has not one parameter",
            Self::Typing { .. } => {
                "a typing rule fails, or a path names a variable or field that isn't there"
            }
            Self::ValueType { .. } => "the value isn't of its declared type",
            Self::NotEscaped => NOT_ESCAPED,
            Self::ScratchTooShort => "the scratch has fewer than 4,800 16-bit numbers",
            Self::FuelSpent { .. } => "a node is reached with all fuel used",
            Self::TooDeep { .. } => "a node is reached at depth 201",
            Self::OutputFull { .. } => "a keyword, lexeme or separator passes the end of the output",
            Self::NoRoom => "what is to be written doesn't fit the output",
            Self::Unknown { .. } => "a refusal that this wrapper doesn't know",
        }
    }

    /// The stream that the refusal is about, if any.
    #[must_use]
    pub fn stream(self) -> Option<Stream> {
        match self {
            Self::Length { stream }
            | Self::Block { stream, .. }
            | Self::Layout { stream }
            | Self::Limit { stream, .. }
            | Self::Name { stream, .. } => Some(stream),
            Self::Class { .. } => Some(Stream::Grammar),
            Self::Typing { .. }
            | Self::FuelSpent { .. }
            | Self::TooDeep { .. }
            | Self::OutputFull { .. } => Some(Stream::Templates),
            Self::ValueType { .. } => Some(Stream::Value),
            Self::ScratchTooShort | Self::NotEscaped | Self::NoRoom | Self::Unknown { .. } => None,
        }
    }

    /// The record that the refusal is about, if it is about one.
    #[must_use]
    pub fn record(self) -> Option<u64> {
        match self {
            Self::Limit { record, .. }
            | Self::Name { record, .. }
            | Self::Class { record }
            | Self::ValueType { record } => Some(record),
            Self::Typing { node: 0 } => None,
            Self::Typing { node }
            | Self::FuelSpent { node }
            | Self::TooDeep { node }
            | Self::OutputFull { node } => Some(node),
            _ => None,
        }
    }
}

impl fmt::Display for Refusal {
    fn fmt(&self, f: &mut fmt::Formatter<'_>) -> fmt::Result {
        let kind_or_block = Self::Block {
            stream: Stream::Lent,
            block: 0,
        };
        if let Some(stream) = self.stream().filter(|_| *self != kind_or_block) {
            write!(f, "{stream}")?;
            match (self, self.record()) {
                (Self::Block { block, .. }, _) => write!(f, ", block {block}: ")?,
                (_, Some(record)) => write!(f, ", record {record}: ")?,
                (_, None) => f.write_str(": ")?,
            }
        }
        write!(f, "{} (refusal {})", self.rule(), self.number())
    }
}

impl Error for Refusal {}

#[cfg(test)]
mod tests {
    use super::*;

    fn said(fields: [u64; 5]) -> String {
        Answer::from_fields(fields)
            .refusal()
            .expect("a refusal")
            .to_string()
    }

    #[test]
    fn an_answer_keeps_its_five_numbers() {
        assert_eq!(
            Answer::from_fields([10, 2, 9, 6, 6]).fields(),
            [10, 2, 9, 6, 6]
        );
    }

    #[test]
    fn zero_is_no_refusal() {
        let answer = Answer::from_fields([0, 0, 0, 7, 16]);
        assert_eq!(answer.refusal(), None);
        assert_eq!(
            answer.finished(),
            Ok(Finished {
                steps: 7,
                bytes: 16
            })
        );
    }

    #[test]
    fn every_number_comes_back() {
        for number in 1..20 {
            for kind in 0..4 {
                let refusal = Answer::from_fields([number, kind, 5, 0, 0])
                    .refusal()
                    .expect("a refusal");
                assert_eq!(refusal.number(), number);
            }
        }
    }

    #[test]
    fn a_refusal_names_its_stream_and_place() {
        assert_eq!(
            said([1, 2, 0, 0, 0]),
            "the templates: the length is zero, above 65,536 or no multiple of 512 (refusal 1)"
        );
        assert_eq!(
            said([2, 1, 3, 0, 0]),
            "the grammar, block 3: a block has a wrong number, kind, byte 3 or check (refusal 2)"
        );
        assert_eq!(
            said([2, 0, 3, 0, 0]),
            "the lent bytes, block 3: a block has a wrong number, kind, byte 3 or check (refusal 2)"
        );
        assert_eq!(
            said([8, 3, 1, 0, 0]),
            "the value, record 1: the value isn't of its declared type (refusal 8)"
        );
        assert_eq!(
            said([8, 0, 0, 0, 0]),
            "the text is no escaped one: it has a bare & < > \" or ', a reference other than \
             &amp; &lt; &gt; &quot; &apos;, or bytes that are no well-formed UTF-8 (refusal 8)"
        );
        assert_eq!(
            said([7, 2, 0, 0, 0]),
            "the templates: template 0 is missing or has not one parameter (refusal 7)"
        );
        assert_eq!(
            said([9, 0, 0, 0, 0]),
            "the scratch has fewer than 4,800 16-bit numbers (refusal 9)"
        );
        assert_eq!(
            said([12, 0, 0, 0, 0]),
            "what is to be written doesn't fit the output (refusal 12)"
        );
        assert_eq!(
            said([12, 2, 4, 7, 15]),
            "the templates, record 4: a keyword, lexeme or separator passes the end of the output (refusal 12)"
        );
    }

    #[test]
    fn a_wrong_kind_is_not_laid_on_a_block() {
        let words =
            "the kind is outside 1 to 3, or block 0 has a wrong number, kind, byte 3 or check \
                     (refusal 2)";
        assert_eq!(said([2, 0, 0, 0, 0]), words);
        let (payload, mut blocks, mut back) = ([0; 8], [0; crate::BLOCK], [0; crate::PAYLOAD]);
        for kind in [0, 4, 255] {
            let answer = crate::pack(kind, &payload, &mut blocks);
            assert_eq!(said(answer.fields()), words);
        }
        assert_eq!(crate::pack(2, &payload, &mut blocks).number, 0);
        for kind in [0, 1, 3, 4, 255] {
            let answer = crate::unpack(kind, &blocks, &mut back);
            assert_eq!(said(answer.fields()), words);
        }
    }
}
