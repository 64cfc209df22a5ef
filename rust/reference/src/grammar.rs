//! The grammar stream: plain and escaped classes in one row, then productions with their elements.

use std::collections::HashSet;

use crate::records::{ask, Broken, Reader, Record, Records};

/// A grammar whose layout holds.
pub(crate) struct Grammar<'a> {
    pub(crate) classes: Vec<Class>,
    pub(crate) productions: Vec<Production<'a>>,
    nonterminals: HashSet<u16>,
}

/// A class of the common row.
pub(crate) enum Class {
    Plain(PlainClass),
    Escaped(EscapedClass),
}

/// A class record with its ranges.
pub(crate) struct PlainClass {
    pub(crate) place: usize,
    pub(crate) least: u16,
    pub(crate) most: u16,
    pub(crate) ranges: Vec<CodeRange>,
}

/// An escaped class: its lexemes are those of a plain class, escaped.
pub(crate) struct EscapedClass {
    pub(crate) place: usize,
    /// The number of the plain class.
    pub(crate) plain: u16,
}

/// A range of code points, both ends included.
pub(crate) struct CodeRange {
    pub(crate) place: usize,
    pub(crate) lowest: u32,
    pub(crate) highest: u32,
}

/// A production record with its elements.
pub(crate) struct Production<'a> {
    pub(crate) nonterminal: u16,
    pub(crate) elements: Vec<Element<'a>>,
}

/// One element of a production.
pub(crate) struct Element<'a> {
    pub(crate) place: usize,
    pub(crate) symbol: Symbol<'a>,
}

/// What an element stands for.
#[derive(Clone, Copy)]
pub(crate) enum Symbol<'a> {
    Keyword(&'a [u8]),
    Class(u16),
    Nonterminal(u16),
    /// Texts of a nonterminal in a row, with the separator between neighbours; element 3 has an
    /// empty one.
    Repetition(u16, &'a [u8]),
}

impl<'a> Grammar<'a> {
    /// Reads the layout of a grammar stream.
    pub(crate) fn read(records: &'a Records) -> Result<Self, Broken> {
        let mut reader = records.reader();
        let mut classes = Vec::new();
        while let Some(kind @ (1 | 5)) = reader.next_kind() {
            classes.push(match kind {
                1 => Class::Plain(read_plain_class(&mut reader, classes.len())?),
                _ => Class::Escaped(read_escaped_class(&mut reader, classes.len())?),
            });
        }
        let mut productions = Vec::new();
        while reader.next_kind() == Some(3) {
            productions.push(read_production(&mut reader, productions.len())?);
        }
        reader.finish()?;
        let nonterminals = productions.iter().map(|p| p.nonterminal).collect();
        Ok(Grammar {
            classes,
            productions,
            nonterminals,
        })
    }

    /// Whether a number is that of a plain class.
    pub(crate) fn has_plain_class(&self, number: u16) -> bool {
        let class = self.classes.get(usize::from(number));
        matches!(class, Some(Class::Plain(_)))
    }

    /// The class whose texts a place takes in the position of a class: of an escaped one the plain
    /// one that it names.
    pub(crate) fn plain_class(&self, number: u16) -> u16 {
        match &self.classes[usize::from(number)] {
            Class::Plain(_) => number,
            Class::Escaped(class) => class.plain,
        }
    }

    /// A nonterminal exists if it has a production.
    pub(crate) fn has_nonterminal(&self, nonterminal: u16) -> bool {
        self.nonterminals.contains(&nonterminal)
    }
}

fn read_plain_class(reader: &mut Reader<'_>, number: usize) -> Result<PlainClass, Broken> {
    let place = reader.place();
    let head = reader.record_of(1)?;
    ask(usize::from(head.a()) == number)?;
    let mut ranges = Vec::new();
    for _ in 0..head.d() {
        ranges.push(read_range(reader)?);
    }
    Ok(PlainClass {
        place,
        least: head.b(),
        most: head.c(),
        ranges,
    })
}

fn read_escaped_class(reader: &mut Reader<'_>, number: usize) -> Result<EscapedClass, Broken> {
    let place = reader.place();
    let head = reader.record_of(5)?;
    ask(usize::from(head.a()) == number && head.c() == 0 && head.d() == 0)?;
    let plain = head.b();
    Ok(EscapedClass { place, plain })
}

fn read_range(reader: &mut Reader<'_>) -> Result<CodeRange, Broken> {
    let place = reader.place();
    let Record([_, l0, l1, l2, h0, h1, h2, unused]) = reader.record_of(2)?;
    ask(unused == 0)?;
    Ok(CodeRange {
        place,
        lowest: u32::from_le_bytes([l0, l1, l2, 0]),
        highest: u32::from_le_bytes([h0, h1, h2, 0]),
    })
}

/// Reads a production, whose number is a word: a holds its low byte and c its high byte.
fn read_production<'a>(reader: &mut Reader<'a>, number: usize) -> Result<Production<'a>, Broken> {
    let head = reader.record_of(3)?;
    ask(usize::from(head.a()) + 256 * usize::from(head.c()) == number)?;
    let mut elements = Vec::new();
    for _ in 0..head.d() {
        elements.push(read_element(reader)?);
    }
    Ok(Production {
        nonterminal: head.b(),
        elements,
    })
}

fn read_element<'a>(reader: &mut Reader<'a>) -> Result<Element<'a>, Broken> {
    let place = reader.place();
    let head = reader.record_of(4)?;
    let (b, c) = (head.b(), head.c());
    ask(head.d() == 0)?;
    let symbol = match head.a() {
        0 if c == 0 => Symbol::Keyword(reader.text(b)?),
        1 if c == 0 => Symbol::Class(b),
        2 if c == 0 => Symbol::Nonterminal(b),
        3 if c == 0 => Symbol::Repetition(b, &[]),
        4 => Symbol::Repetition(b, reader.text(c)?),
        _ => return Err(Broken),
    };
    Ok(Element { place, symbol })
}
