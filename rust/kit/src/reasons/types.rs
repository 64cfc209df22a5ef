//! The row of the types of a template stream.

use crate::streams::record::Record;

/// What a type is.
#[derive(Clone, Copy, Debug, PartialEq, Eq)]
pub enum Shape {
    /// A text of the class with this number.
    Text(u16),
    /// Yes or no.
    YesNo,
    /// A list of the type with this number.
    List(usize),
    /// A record of so many fields.
    Record(usize),
    /// A variant of so many cases.
    Variant(usize),
}

/// The types of a template stream whose layout is sound.
#[derive(Debug)]
pub struct Types<'a> {
    templates: &'a [Record],
    /// The record of each type's head.
    heads: Vec<usize>,
    /// The record behind the last type, where the templates begin.
    pub end: usize,
}

impl<'a> Types<'a> {
    /// Reads them.
    pub fn of(templates: &'a [Record]) -> Self {
        let (mut heads, mut end) = (Vec::new(), 0);
        while let Some(head) = templates.get(end).filter(|head| head.kind() == 1) {
            heads.push(end);
            end += match head.a() {
                3 | 4 => 1 + usize::from(head.d()),
                _ => 1,
            };
        }
        Self {
            templates,
            heads,
            end,
        }
    }

    /// How many there are.
    pub fn count(&self) -> usize {
        self.heads.len()
    }

    /// What a type is, if there is one of this number.
    pub fn shape(&self, number: usize) -> Option<Shape> {
        let head = self.templates.get(*self.heads.get(number)?)?;
        Some(match head.a() {
            0 => Shape::Text(head.b()),
            1 => Shape::YesNo,
            2 => Shape::List(usize::from(head.b())),
            3 => Shape::Record(usize::from(head.d())),
            _ => Shape::Variant(usize::from(head.d())),
        })
    }

    /// The type of a record's field.
    pub fn field(&self, number: usize, field: usize) -> Option<usize> {
        match self.shape(number)? {
            Shape::Record(fields) if field < fields => self.below(number, field),
            _ => None,
        }
    }

    /// The type of a case's content.
    pub fn case(&self, number: usize, case: usize) -> Option<usize> {
        match self.shape(number)? {
            Shape::Variant(cases) if case < cases => self.below(number, case),
            _ => None,
        }
    }

    /// The type that a record below a type's head names.
    fn below(&self, number: usize, field: usize) -> Option<usize> {
        let record = self.templates.get(self.heads.get(number)? + 1 + field)?;
        Some(usize::from(record.b()))
    }

    /// The type whose head, field or case a record is, and which field or case.
    pub fn holding(&self, record: usize) -> Option<(usize, Option<usize>)> {
        let number = self.heads.iter().rposition(|&head| head <= record)?;
        let field = (record - self.heads[number]).checked_sub(1);
        (record < self.end).then_some((number, field))
    }
}
