//! The rows of a grammar and of a template stream whose layouts are sound, read once.

use crate::reasons::classes::{classes, Class};
use crate::reasons::nodes::{row, Template};
use crate::reasons::productions::{productions, Production};
use crate::reasons::types::Types;
use crate::streams::record::Record;

/// The rows of a set.
pub struct Tables<'a> {
    /// The grammar's records.
    pub grammar: &'a [Record],
    /// The templates' records.
    pub records: &'a [Record],
    /// The classes.
    pub classes: Vec<Class<'a>>,
    /// The productions.
    pub productions: Vec<Production>,
    /// The types.
    pub types: Types<'a>,
    /// The templates.
    pub templates: Vec<Template>,
}

impl<'a> Tables<'a> {
    /// Reads them.
    pub fn of(grammar: &'a [Record], records: &'a [Record]) -> Self {
        let types = Types::of(records);
        let templates = row(records, types.end);
        Self {
            grammar,
            records,
            classes: classes(grammar),
            productions: productions(grammar),
            types,
            templates,
        }
    }

    /// The elements of a production that are no keywords: each with its number among all, from 1, and its
    /// record.
    pub fn asking(&self, production: u16) -> Vec<(usize, usize)> {
        let row = self.productions.get(usize::from(production));
        let elements = row.map_or(&[][..], |production| &production.elements);
        let asks = |&(_, at): &(usize, usize)| self.grammar.get(at).is_some_and(|it| it.a() != 0);
        (1..).zip(elements.iter().copied()).filter(asks).collect()
    }

    /// The number of the template that holds a record.
    pub fn template_around(&self, record: usize) -> Option<usize> {
        let holds = |template: &Template| (template.head..template.end).contains(&record);
        self.templates.iter().position(holds)
    }
}
