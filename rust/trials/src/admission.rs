//! Machines that admit other characters than XML 1.0 does, or try admission where they must not, or
//! not where they must, each put on top of the reference.
//!
//! Titles and literals are held against their classes here once more. Without a fault that gives what
//! the reference gives (a test says so), though it shares no code with it.

use std::ops::Range;

use build::borders::{ADMITTED, OTHERS};
use build::{records_of, Record, PAYLOAD};

use crate::faulty::{
    b, c, class_positions, classes, d, elements_of_form, literal, text, text_length, typed,
};
use crate::machine::{Fields, Machine, Reference};
use crate::unescaping::Unescaping;

/// Whether XML 1.0 admits a character.
pub(crate) fn is_admitted(character: char) -> bool {
    matches!(
        character,
        '\t' | '\n' | '\r' | ' '..='\u{D7FF}' | '\u{E000}'..='\u{FFFD}' | '\u{10000}'..
    )
}

/// What is wrong with admission.
#[derive(Clone, Copy, Debug, PartialEq, Eq)]
pub enum Admission {
    /// Nothing.
    Right,
    /// One character is admitted though it must not be, or refused though it is, in texts of a kind.
    Turned(Text, char),
    /// It isn't tried in texts of a kind.
    Untried(Text),
    /// All control characters but U+0000 are admitted, as in XML 1.1.
    OfXmlOneOne,
    /// The last two characters of every plane are refused.
    PlaneByPlane,
    /// It is tried below U+0800 only.
    ShortOnes,
    /// It is tried from U+0800 on only.
    LongOnes,
    /// It is tried for the first character of a text only.
    FirstOnly,
    /// It isn't tried for the last character of a text.
    NotTheLast,
    /// It isn't tried for a character that lies in two blocks.
    NotOverBorders,
    /// It isn't tried for the first character of a block.
    NotAtBlockStarts,
    /// It isn't tried for the last character of a block.
    NotAtBlockEnds,
    /// It is tried for keywords, too.
    Keywords,
    /// It is tried for separators, too.
    Separators,
    /// It is tried for ranges, too.
    Ranges,
}

/// The texts that are lexemes.
#[derive(Clone, Copy, Debug, PartialEq, Eq)]
pub enum Text {
    /// Those of the value.
    Title,
    /// Literals of plain classes.
    Literal,
    /// Literals of escaped classes.
    EscapedLiteral,
}

/// A title or a literal, and the class that it must be a lexeme of.
struct Piece {
    kind: Text,
    place: usize,
    class: usize,
    bytes: Vec<u8>,
}

/// A character of a piece.
struct Spot {
    character: char,
    /// Its bytes in the piece; those of its entity where it is escaped.
    bytes: Range<usize>,
}

/// What a machine answers that goes on where it must refuse. Nothing is known of its walk, and any
/// other answer than the refusal is wrong: it meets the end of its fuel at once.
const GOES_ON: Fields = [10, 2, 0, 0, 0];

impl Admission {
    /// All that go wrong.
    pub(crate) fn all() -> Vec<Admission> {
        let kinds = [Text::Title, Text::Literal, Text::EscapedLiteral];
        let characters = [&OTHERS[..], &ADMITTED].concat();
        let turned = |&kind: &Text| {
            let turned = characters.iter();
            turned.map(move |&character| Admission::Turned(kind, character))
        };
        let mut all: Vec<Admission> = kinds.iter().flat_map(turned).collect();
        all.extend(kinds.map(Admission::Untried));
        all.extend(Self::OTHERS);
        all
    }

    const OTHERS: [Admission; 12] = [
        Admission::OfXmlOneOne,
        Admission::PlaneByPlane,
        Admission::ShortOnes,
        Admission::LongOnes,
        Admission::FirstOnly,
        Admission::NotTheLast,
        Admission::NotOverBorders,
        Admission::NotAtBlockStarts,
        Admission::NotAtBlockEnds,
        Admission::Keywords,
        Admission::Separators,
        Admission::Ranges,
    ];

    pub(crate) fn check(self, grammar: &[u8], templates: &[u8]) -> Fields {
        let right = Reference.check(grammar, templates);
        match self.altered(right, [grammar, templates, &[]]) {
            Some(GOES_ON) => [0; 5],
            Some(refused) => refused,
            None => right,
        }
    }

    pub(crate) fn evaluate(
        self,
        streams: [&[u8]; 3],
        fuel: u32,
        out: &mut [u8],
        scratch: &mut [u16],
    ) -> Fields {
        let (mut written, mut numbers) = (out.to_vec(), scratch.to_vec());
        let right = Reference.evaluate(streams, fuel, &mut written, &mut numbers);
        let Some(answer) = self.altered(right, streams) else {
            out.copy_from_slice(&written);
            scratch.copy_from_slice(&numbers);
            return right;
        };
        if answer == GOES_ON {
            scratch.fill(0);
        }
        answer
    }

    /// What the faulty machine answers instead, if its fault comes to light. Without a value there
    /// are no titles.
    fn altered(self, right: Fields, streams: [&[u8]; 3]) -> Option<Fields> {
        if (1..=6).contains(&right[0]) {
            return None;
        }
        let [grammar, templates, value] = &streams.map(records_of);
        if let Some(place) = self.refused_record(grammar) {
            return Some([6, 1, place as u64, 0, 0]);
        }
        let literals = literals(grammar, templates);
        let judged = self.judged([7, 2], right, grammar, literals);
        if judged.is_some() || right[0] == 7 {
            return judged;
        }
        self.judged([8, 3], right, grammar, titles(grammar, templates, value))
    }

    /// The first record of a grammar that this machine refuses by its characters.
    fn refused_record(self, grammar: &[Record]) -> Option<usize> {
        let holds = |&at: &usize| {
            let bytes = text(grammar, at, text_length(&grammar[at]));
            String::from_utf8_lossy(&bytes).contains(OTHERS)
        };
        match self {
            Admission::Keywords => elements_of_form(grammar, 0).into_iter().find(holds),
            Admission::Separators => elements_of_form(grammar, 4).into_iter().find(holds),
            Admission::Ranges => {
                let of_class = |head| ranges(grammar, head);
                let mut all = classes(grammar).into_iter().flat_map(of_class);
                let (place, _) = all.find(|(_, (low, high))| {
                    let within = |other: &char| (*low..=*high).contains(&u32::from(*other));
                    OTHERS.iter().any(within)
                })?;
                Some(place)
            }
            _ => None,
        }
    }

    /// What this machine answers at the first of some pieces that it judges otherwise; they are
    /// refused by a number with a kind.
    fn judged(
        self,
        [number, kind]: [u64; 2],
        right: Fields,
        grammar: &[Record],
        pieces: Vec<Piece>,
    ) -> Option<Fields> {
        let end = match right {
            [refused, _, place, ..] if refused == number => place as usize,
            _ => usize::MAX,
        };
        let mut tried = pieces.iter().take_while(|piece| piece.place <= end);
        let other = tried.find(|piece| self.takes(grammar, piece) == (piece.place == end))?;
        Some(match other.place == end {
            true => GOES_ON,
            false => [number, kind, other.place as u64, 0, 0],
        })
    }

    /// Whether this machine takes a piece for a lexeme of its class.
    fn takes(self, grammar: &[Record], piece: &Piece) -> bool {
        let Some(spots) = spots(&piece.bytes, piece.kind == Text::EscapedLiteral) else {
            return false;
        };
        let head = &grammar[piece.class];
        let ranges = ranges(grammar, piece.class);
        let held = |spot: &Spot| {
            let code = u32::from(spot.character);
            let mut ranges = ranges.iter();
            ranges.any(|(_, (low, high))| (*low..=*high).contains(&code))
        };
        let counted = (b(head)..=c(head)).contains(&spots.len());
        counted
            && spots
                .iter()
                .all(|spot| held(spot) && self.admits(piece, spot))
    }

    fn admits(self, piece: &Piece, spot: &Spot) -> bool {
        let character = spot.character;
        let right = is_admitted(character);
        // A text lies behind its head, in records of eight bytes.
        let [start, end] = [spot.bytes.start, spot.bytes.end].map(|at| (piece.place + 1) * 8 + at);
        match self {
            Admission::Turned(kind, turned) => right != (kind == piece.kind && turned == character),
            Admission::Untried(kind) => right || kind == piece.kind,
            Admission::OfXmlOneOne => right || ('\u{1}'..' ').contains(&character),
            Admission::PlaneByPlane => right && u32::from(character) & 0xFFFE != 0xFFFE,
            Admission::ShortOnes => right || character >= '\u{800}',
            Admission::LongOnes => right || character < '\u{800}',
            Admission::FirstOnly => right || spot.bytes.start > 0,
            Admission::NotTheLast => right || spot.bytes.end == piece.bytes.len(),
            Admission::NotOverBorders => right || start / PAYLOAD != (end - 1) / PAYLOAD,
            Admission::NotAtBlockStarts => right || start.is_multiple_of(PAYLOAD),
            Admission::NotAtBlockEnds => right || end.is_multiple_of(PAYLOAD),
            _ => right,
        }
    }
}

/// The ranges of a class, each with its record; an escaped one has none.
fn ranges(grammar: &[Record], class: usize) -> Vec<(usize, (u32, u32))> {
    let count = match grammar[class][0] {
        1 => d(&grammar[class]),
        _ => 0,
    };
    let range = |at: usize| {
        let [_, l0, l1, l2, h0, h1, h2, _] = grammar[at];
        let code = |bytes| u32::from_le_bytes(bytes);
        (at, (code([l0, l1, l2, 0]), code([h0, h1, h2, 0])))
    };
    (class + 1..class + 1 + count).map(range).collect()
}

/// The characters of a text, if it is well-formed, and has entities for the five where it is escaped.
fn spots(bytes: &[u8], escaped: bool) -> Option<Vec<Spot>> {
    let text = std::str::from_utf8(bytes).ok()?;
    let (mut spots, mut at) = (Vec::new(), 0);
    while let Some(first) = text[at..].chars().next() {
        let (character, length) = match escaped && "&<>\"'".contains(first) {
            true => {
                let (byte, length) = Unescaping::Right.character(&bytes[at..])?;
                (byte.into(), length)
            }
            false => (first, first.len_utf8()),
        };
        let bytes = at..at + length;
        at = bytes.end;
        spots.push(Spot { character, bytes });
    }
    Some(spots)
}

/// The literals in the positions of classes, in record order.
fn literals(grammar: &[Record], templates: &[Record]) -> Vec<Piece> {
    let mut positions = class_positions(grammar, templates);
    positions.retain(|&(node, _)| templates[node][1] == 1);
    positions.sort_unstable();
    let heads = classes(grammar);
    let piece = |(place, class): (usize, usize)| {
        let (kind, class) = match grammar[class][0] {
            5 => (Text::EscapedLiteral, heads[b(&grammar[class])]),
            _ => (Text::Literal, class),
        };
        let bytes = literal(templates, place);
        Piece {
            kind,
            place,
            class,
            bytes,
        }
    };
    positions.into_iter().map(piece).collect()
}

/// The texts of the value, in record order, as far as it is of its declared type.
fn titles(grammar: &[Record], templates: &[Record], value: &[Record]) -> Vec<Piece> {
    let heads = classes(grammar);
    let texts = typed(templates, value)
        .into_iter()
        .filter(|&(place, head)| (templates[head][1], value[place][0]) == (0, 1));
    let piece = |(place, head): (usize, usize)| Piece {
        kind: Text::Title,
        place,
        class: heads[b(&templates[head])],
        bytes: text(value, place, b(&value[place])),
    };
    texts.map(piece).collect()
}
