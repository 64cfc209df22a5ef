//! What a record may be the head of.

use crate::streams::record::{Kind, Record};

/// What a head is the head of.
#[derive(Clone, Copy, Debug, PartialEq, Eq)]
pub enum Thing {
    /// A class of characters, plain or escaped.
    Class,
    /// A range of a class.
    Range,
    /// A production.
    Production,
    /// An element of a production.
    Element,
    /// A type.
    Type,
    /// A field of a record type, or a case of a variant.
    Field,
    /// A template.
    Template,
    /// A parameter of a template.
    Parameter,
    /// A node.
    Node,
    /// A path.
    Path,
    /// A value.
    Value,
}

impl Thing {
    /// How many kinds of things there are.
    pub const COUNT: usize = Self::Value as usize + 1;

    /// The thing as a mark calls it.
    pub fn called(self) -> &'static str {
        match self {
            Self::Class => "a class",
            Self::Range => "a range",
            Self::Production => "a production",
            Self::Element => "an element",
            Self::Type => "a type",
            Self::Field => "a field",
            Self::Template => "a template",
            Self::Parameter => "a parameter",
            Self::Node => "a node",
            Self::Path => "a path",
            Self::Value => "a value",
        }
    }

    /// What a record is the head of, by its stream and its kind.
    pub fn of(kind: Kind, record: Record) -> Option<Self> {
        let row: &[Self] = match kind {
            Kind::Grammar => &[
                Self::Class,
                Self::Range,
                Self::Production,
                Self::Element,
                Self::Class,
            ],
            Kind::Templates => &[
                Self::Type,
                Self::Field,
                Self::Template,
                Self::Parameter,
                Self::Node,
                Self::Path,
            ],
            Kind::Value => &[Self::Value; 5],
        };
        usize::from(record.kind())
            .checked_sub(1)
            .and_then(|index| row.get(index))
            .copied()
    }
}
