//! The grammar as its stream says it. Blocks and layout are taken to be right.

use std::collections::HashMap;

/// A grammar read from its stream.
#[derive(Debug, Default)]
pub struct Grammar {
    pub(crate) classes: Vec<Class>,
    pub(crate) productions: Vec<Production>,
    pub(crate) by_nonterminal: HashMap<u16, Vec<usize>>,
}

#[derive(Clone, Debug)]
pub(crate) struct Class {
    pub(crate) least: u32,
    pub(crate) most: u32,
    pub(crate) ranges: Vec<(u32, u32)>,
    /// Whether the five characters of [`ENTITIES`] are written as these.
    pub(crate) escaped: bool,
}

/// The predefined entities of XML 1.0, and what they stand for.
const ENTITIES: [(&str, char); 5] = [
    ("&amp;", '&'),
    ("&lt;", '<'),
    ("&gt;", '>'),
    ("&quot;", '"'),
    ("&apos;", '\''),
];

#[derive(Debug)]
pub(crate) struct Production {
    pub(crate) nonterminal: u16,
    pub(crate) elements: Vec<Element>,
}

#[derive(Debug)]
pub(crate) enum Element {
    Keyword(Vec<u8>),
    Class(usize),
    Nonterminal(u16),
    /// Texts of a nonterminal, with these bytes between neighbours; element 3 has none.
    Repetition(u16, Vec<u8>),
}

/// Bytes 4 to 507 of each block, one behind the other.
fn payload(stream: &[u8]) -> Vec<u8> {
    let mut bytes = Vec::new();
    for block in stream.chunks_exact(512) {
        bytes.extend_from_slice(&block[4..508]);
    }
    bytes
}

fn word(record: &[u8], at: usize) -> u16 {
    u16::from_le_bytes([record[at], record[at + 1]])
}

fn code(bytes: &[u8]) -> u32 {
    u32::from(bytes[0]) | u32::from(bytes[1]) << 8 | u32::from(bytes[2]) << 16
}

/// The nonterminal of template 0: the first record of kind 3 of a templates stream.
#[must_use]
pub fn start(templates: &[u8]) -> Option<u16> {
    let bytes = payload(templates);
    let mut records = bytes.chunks_exact(8);
    records
        .find(|record| record[0] == 3)
        .map(|record| word(record, 2))
}

impl Grammar {
    /// Reads a grammar stream; `None` if a record comes where it can't be.
    #[must_use]
    pub fn read(stream: &[u8]) -> Option<Grammar> {
        let bytes = payload(stream);
        let mut grammar = Grammar::default();
        let mut at = 0;
        while let Some(record) = bytes.get(at..at + 8) {
            at += 8;
            match record[0] {
                0 => break,
                1 => grammar.classes.push(Class {
                    least: word(record, 2).into(),
                    most: word(record, 4).into(),
                    ranges: Vec::new(),
                    escaped: false,
                }),
                2 => {
                    let range = (code(&record[1..4]), code(&record[4..7]));
                    grammar.classes.last_mut()?.ranges.push(range);
                }
                3 => grammar.open_production(word(record, 2)),
                4 => {
                    let (element, text) = read_element(record, &bytes[at..])?;
                    grammar.productions.last_mut()?.elements.push(element);
                    at += text;
                }
                5 => grammar.open_escaped(word(record, 2))?,
                _ => return None,
            }
        }
        Some(grammar)
    }

    /// An escaped class has the counts and ranges of an earlier plain one.
    fn open_escaped(&mut self, plain: u16) -> Option<()> {
        let named = self.classes.get(usize::from(plain));
        let class = named.filter(|class| !class.escaped)?.clone();
        self.classes.push(Class {
            escaped: true,
            ..class
        });
        Some(())
    }

    fn open_production(&mut self, nonterminal: u16) {
        let number = self.productions.len();
        self.by_nonterminal
            .entry(nonterminal)
            .or_default()
            .push(number);
        self.productions.push(Production {
            nonterminal,
            elements: Vec::new(),
        });
    }
}

/// An element and the bytes that its text takes behind it.
fn read_element(record: &[u8], behind: &[u8]) -> Option<(Element, usize)> {
    let (number, length) = (word(record, 2), word(record, 4));
    let text = |length: u16| behind.get(..length.into()).map(<[u8]>::to_vec);
    let units = |length: u16| usize::from(length).div_ceil(8) * 8;
    Some(match record[1] {
        0 => (Element::Keyword(text(number)?), units(number)),
        1 => (Element::Class(number.into()), 0),
        2 => (Element::Nonterminal(number), 0),
        3 => (Element::Repetition(number, Vec::new()), 0),
        4 => (Element::Repetition(number, text(length)?), units(length)),
        _ => return None,
    })
}

impl Class {
    /// Whether a class with `count` characters so far may end here.
    pub(crate) fn may_end(&self, count: u32) -> bool {
        (self.least..=self.most).contains(&count)
    }

    /// The bytes of the character that a text begins with, if the class holds it and XML has it.
    pub(crate) fn character(&self, text: &[u8]) -> Option<usize> {
        let (character, length) = match self.escaped {
            true => escaped_character(text)?,
            false => plain_character(text)?,
        };
        let code = u32::from(character);
        let mut ranges = self.ranges.iter();
        let held = ranges.any(|&(low, high)| low <= code && code <= high);
        (held && !is_foreign(character)).then_some(length)
    }
}

/// Whether XML 1.0 has no such character: the controls below the space but for tab, line feed and
/// carriage return, and the last two of the first plane.
fn is_foreign(character: char) -> bool {
    match character {
        '\t' | '\n' | '\r' => false,
        '\u{FFFE}' | '\u{FFFF}' => true,
        _ => character < ' ',
    }
}

/// The character that a text begins with, and how many bytes it takes.
fn plain_character(text: &[u8]) -> Option<(char, usize)> {
    let length = match *text.first()? {
        0x00..=0x7F => 1,
        0xC2..=0xDF => 2,
        0xE0..=0xEF => 3,
        0xF0..=0xF4 => 4,
        _ => return None,
    };
    let character = std::str::from_utf8(text.get(..length)?)
        .ok()?
        .chars()
        .next()?;
    Some((character, length))
}

/// The same where the five characters are written as their entities, and so never stand for
/// themselves.
fn escaped_character(text: &[u8]) -> Option<(char, usize)> {
    for (entity, character) in ENTITIES {
        if text.starts_with(entity.as_bytes()) {
            return Some((character, entity.len()));
        }
    }
    plain_character(text)
        .filter(|(character, _)| ENTITIES.iter().all(|(_, five)| five != character))
}
