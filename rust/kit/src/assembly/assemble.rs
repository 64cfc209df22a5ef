//! Makes the three streams of a description.
//!
//! The assembler looks names up and counts sizes. It judges no rule of the machine: a description that
//! breaks one (a literal that is no lexeme, a field of a later type, an escaped class of an escaped one)
//! is assembled all the same, and the proved check refuses it.

mod arms;
mod grammar;
mod paths;
mod templates;
mod types;
mod values;

use crate::assembly::sheet::{word, Sheet};
use crate::language::description::{Description, Text};
use crate::language::parser::parse;
use crate::language::rows::Rows;
use crate::mistake::{end_of, Mistake, Position};
use crate::streams::record::Kind;

/// The three streams, as their files hold them.
#[derive(Debug, PartialEq, Eq)]
pub struct Streams {
    /// The grammar.
    pub grammar: Vec<u8>,
    /// The templates.
    pub templates: Vec<u8>,
    /// The value.
    pub value: Vec<u8>,
}

/// The streams of a description that has a value.
///
/// # Errors
/// The mistakes: in the form or, if that is right, in names, and what no stream can hold.
pub fn assemble(description: &str) -> Result<Streams, Vec<Mistake>> {
    let tree = parse(description)?;
    let end = end_of(description);
    let set = Assembled::of(&tree, end)?;
    let Some(value) = set.value else {
        return Err(vec![Mistake::new(end, "the description has no `value`")]);
    };
    Ok(Streams {
        grammar: set.grammar.blocks,
        templates: set.templates.blocks,
        value: value.blocks,
    })
}

/// A stream that was made from a text.
#[derive(Debug)]
pub struct Made {
    /// Its blocks.
    pub blocks: Vec<u8>,
    /// Its records, and where they come from.
    pub sheet: Sheet,
}

impl Made {
    /// Packs the records of a sheet.
    ///
    /// # Errors
    /// The mistake, if they don't make a stream.
    pub fn of(kind: Kind, sheet: Sheet, end: Position) -> Result<Self, Mistake> {
        let blocks = sheet.packed(kind, end)?;
        Ok(Self { blocks, sheet })
    }
}

/// The streams of a description, each record with its place in it.
#[derive(Debug)]
pub struct Assembled {
    /// The grammar.
    pub grammar: Made,
    /// The templates.
    pub templates: Made,
    /// The value, if the description has one.
    pub value: Option<Made>,
}

impl Assembled {
    /// Assembles a description that ends at `end`.
    ///
    /// # Errors
    /// All mistakes in names, and what no stream can hold.
    pub fn of(tree: &Description, end: Position) -> Result<Self, Vec<Mistake>> {
        let mut mistakes = Vec::new();
        let rows = Rows::of(tree, &mut mistakes);
        let mut assembler = Assembler { rows, mistakes };
        let grammar = assembler.grammar(tree);
        let templates = assembler.templates(tree);
        let value = tree.value.as_ref().map(|value| {
            let declared = assembler.rows.declared(tree);
            assembler.value(value, declared)
        });
        if !assembler.mistakes.is_empty() {
            return Err(assembler.mistakes);
        }
        let mut mistakes = Vec::new();
        let mut made = |kind, sheet| {
            let made = Made::of(kind, sheet, end);
            made.map_err(|mistake| mistakes.push(mistake)).ok()
        };
        let grammar = made(Kind::Grammar, grammar);
        let templates = made(Kind::Templates, templates);
        let value = value.map(|value| made(Kind::Value, value));
        match (grammar, templates, mistakes.is_empty()) {
            (Some(grammar), Some(templates), true) => Ok(Self {
                grammar,
                templates,
                value: value.flatten(),
            }),
            _ => Err(mistakes),
        }
    }
}

/// The names of a description, and the mistakes that were met. What has a mistake gets a stand-in, so
/// that all mistakes are found at once.
struct Assembler<'a> {
    rows: Rows<'a>,
    mistakes: Vec<Mistake>,
}

impl Assembler<'_> {
    fn mistake(&mut self, at: Position, message: impl Into<String>) {
        self.mistakes.push(Mistake::new(at, message));
    }

    /// The length of a text as its head holds it.
    fn text_length(&mut self, text: &Text) -> u16 {
        let length = text.bytes.len();
        if u16::try_from(length).is_err() {
            let message =
                format!("{length} bytes of text are more than the 65,535 that a record counts");
            self.mistake(text.at, message);
        }
        word(length)
    }
}

#[cfg(test)]
mod tests;
