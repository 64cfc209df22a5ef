//! A case: a call, and the words that its line begins with.

use crate::records::Records;
use build::{GRAMMAR, TEMPLATES, VALUE};

/// A call and what its line says in front of the arrow.
#[derive(Clone, Debug)]
pub struct Case {
    /// What is asked, in words.
    pub label: String,
    /// The call.
    pub call: Call,
}

/// A call and all that it is lent.
#[derive(Clone, Debug)]
pub enum Call {
    /// FNV-1a of these bytes.
    Fnv1a(Vec<u8>),
    /// The payload of a single block whose check starts from this number.
    BlockPayload(Vec<u8>, u32),
    /// A payload packed as a kind into an output of so many bytes.
    Pack(u8, Vec<u8>, usize),
    /// A stream unpacked as a kind into an output of so many bytes.
    Unpack(u8, Vec<u8>, usize),
    /// A text unescaped into an output of so many bytes.
    Unescape(Vec<u8>, usize),
    /// Both calls on a set: evaluate, and check.
    Evaluate(Set, Lent),
}

/// The streams of a set and a value.
#[derive(Clone, Debug)]
pub struct Set {
    /// The grammar's blocks.
    pub grammar: Vec<u8>,
    /// The templates' blocks.
    pub templates: Vec<u8>,
    /// The value's blocks.
    pub value: Vec<u8>,
}

/// What is lent to an evaluate call besides the streams.
#[derive(Clone, Copy, Debug)]
pub struct Lent {
    /// The most steps.
    pub fuel: u32,
    /// The bytes of the output.
    pub room: usize,
    /// The 16-bit numbers of the scratch.
    pub numbers: usize,
}

/// Enough of all for every case that finishes.
pub const PLENTY: Lent = Lent {
    fuel: 1_000_000,
    room: 64,
    numbers: 4_800,
};

impl Set {
    /// A set and a value, packed.
    #[must_use]
    pub fn of(grammar: &Records, templates: &Records, value: &Records) -> Self {
        Set {
            grammar: grammar.packed(GRAMMAR),
            templates: templates.packed(TEMPLATES),
            value: value.packed(VALUE),
        }
    }

    /// With other blocks as the grammar.
    #[must_use]
    pub fn grammar(self, grammar: Vec<u8>) -> Self {
        Set { grammar, ..self }
    }

    /// With other blocks as the templates.
    #[must_use]
    pub fn templates(self, templates: Vec<u8>) -> Self {
        Set { templates, ..self }
    }

    /// With other blocks as the value.
    #[must_use]
    pub fn value(self, value: Vec<u8>) -> Self {
        Set { value, ..self }
    }

    /// The case of this set, with enough of all lent.
    #[must_use]
    pub fn case(self, label: &str) -> Case {
        self.lent(label, PLENTY)
    }

    /// The case of this set, with so much lent. The label starts with the number that the evaluate
    /// call is to answer.
    #[must_use]
    pub fn lent(self, label: &str, lent: Lent) -> Case {
        Case {
            label: label.to_string(),
            call: Call::Evaluate(self, lent),
        }
    }
}
