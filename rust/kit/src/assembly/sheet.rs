//! The records of a stream as they are made, each with the place in the text that it comes from.

use crate::mistake::{Mistake, Position};
use crate::streams::record::{packed, text_units, Kind, Record, STREAM_RECORDS};
use std::fmt;

/// What a name of a record is the name of.
#[derive(Clone, Copy, Debug, PartialEq, Eq)]
pub enum What {
    /// A class.
    Class,
    /// A production.
    Production,
    /// A nonterminal.
    Nonterminal,
    /// A type.
    Type,
    /// A field of a record.
    Field,
    /// A case of a variant.
    Case,
    /// A template.
    Template,
    /// A parameter of a template.
    Parameter,
    /// The variable of a for.
    Loop,
    /// The variable of an arm: what its case holds.
    Content,
    /// A path as it is written.
    Path,
}

impl What {
    /// All of them.
    pub const ALL: [Self; 11] = [
        Self::Class,
        Self::Production,
        Self::Nonterminal,
        Self::Type,
        Self::Field,
        Self::Case,
        Self::Template,
        Self::Parameter,
        Self::Loop,
        Self::Content,
        Self::Path,
    ];
}

impl fmt::Display for What {
    fn fmt(&self, f: &mut fmt::Formatter<'_>) -> fmt::Result {
        f.write_str(match self {
            Self::Class => "class",
            Self::Production => "production",
            Self::Nonterminal => "nonterminal",
            Self::Type => "type",
            Self::Field => "field",
            Self::Case => "case",
            Self::Template => "template",
            Self::Parameter => "parameter",
            Self::Loop => "loop variable",
            Self::Content => "case variable",
            Self::Path => "path",
        })
    }
}

/// Where a record comes from, and the names that it has.
#[derive(Clone, Debug, PartialEq, Eq)]
pub struct Origin {
    /// The place in the text.
    pub at: Position,
    /// The names; most records have none or one.
    pub names: Vec<(What, String)>,
}

/// The records of a stream, and where each comes from.
#[derive(Debug, Default)]
pub struct Sheet {
    /// The records.
    pub records: Vec<Record>,
    /// As many origins.
    pub origins: Vec<Origin>,
}

impl Sheet {
    /// Adds a record, and gives its index.
    pub fn push(&mut self, record: Record, at: Position) -> usize {
        self.records.push(record);
        self.origins.push(Origin {
            at,
            names: Vec::new(),
        });
        self.records.len() - 1
    }

    /// Adds a record with a name.
    pub fn push_named(&mut self, record: Record, at: Position, what: What, name: &str) -> usize {
        let index = self.push(record, at);
        self.origins[index].names.push((what, name.to_string()));
        index
    }

    /// Adds the units of a text.
    pub fn push_text(&mut self, text: &[u8], at: Position) {
        for unit in text_units(text) {
            self.push(unit, at);
        }
    }

    /// Gives a head its size, now that all below it is there.
    pub fn close(&mut self, head: usize) {
        let size = word(self.records.len() - head);
        self.records[head].0[4..6].copy_from_slice(&size.to_le_bytes());
    }

    /// The blocks of the stream. A stream without records has its mistake at `end`.
    ///
    /// # Errors
    /// There are no records, or more than a stream holds.
    pub fn packed(&self, kind: Kind, end: Position) -> Result<Vec<u8>, Mistake> {
        let count = self.records.len();
        if count == 0 {
            let parts = match kind {
                Kind::Grammar => "no `class` and no `production`",
                Kind::Templates => "no `type` and no `template`",
                Kind::Value => "no `value`",
            };
            let message = format!("the description has nothing for the {kind}: {parts}");
            return Err(Mistake::new(end, message));
        }
        if let Some(first) = self.origins.get(STREAM_RECORDS) {
            let message = format!(
                "the {kind} takes {count} records, and a stream holds {STREAM_RECORDS}: \
                 from here on they don't fit"
            );
            return Err(Mistake::new(first.at, message));
        }
        packed(kind, &self.records).map_err(|refusal| Mistake::new(end, refusal.to_string()))
    }
}

/// A count as the word that a record holds. What is more than a word counts takes more records than a
/// stream holds, and that is the mistake that is told.
pub fn word(count: usize) -> u16 {
    u16::try_from(count).unwrap_or(u16::MAX)
}
