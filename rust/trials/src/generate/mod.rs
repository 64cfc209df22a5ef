//! Sets to try: random ones of every form, and families that stand at the limits.

mod admission;
mod escapes;
mod families;
mod grammars;
mod lexemes;
mod productions;
mod separators;
mod sketch;
mod values;
mod variants;

use build::{Grammar, Templates, Value};

use crate::random::Random;

/// The three streams of a case.
#[derive(Clone, Debug, PartialEq, Eq)]
pub struct Streams {
    /// The grammar's bytes.
    pub grammar: Vec<u8>,
    /// The templates' bytes.
    pub templates: Vec<u8>,
    /// The value's bytes.
    pub value: Vec<u8>,
}

impl Streams {
    /// The streams of a set.
    #[must_use]
    pub fn of(grammar: &Grammar, templates: &Templates, value: &Value) -> Self {
        Streams {
            grammar: grammar.stream(),
            templates: templates.stream(),
            value: value.stream(),
        }
    }

    /// The three as slices, in their order.
    #[must_use]
    pub fn parts(&self) -> [&[u8]; 3] {
        [&self.grammar, &self.templates, &self.value]
    }

    /// One of the three, by its kind less one.
    pub fn part_mut(&mut self, index: usize) -> &mut Vec<u8> {
        match index {
            0 => &mut self.grammar,
            1 => &mut self.templates,
            _ => &mut self.value,
        }
    }
}

/// A set that keeps its layout: mostly an accepted one, at times with slips or over a limit.
#[must_use]
pub fn streams(random: &mut Random) -> Streams {
    match random.below(12) {
        0..=3 => sketch::set(random, None),
        4..=6 => {
            let slips = *random.pick(&[8, 20, 60, 150]);
            sketch::set(random, Some(slips))
        }
        _ => families::set(random),
    }
}

/// A set that is accepted, with a value of its declared type.
#[must_use]
pub fn accepted(random: &mut Random) -> Streams {
    loop {
        let streams = sketch::set(random, None);
        if streams.parts().iter().all(|stream| stream.len() <= 65_536) {
            return streams;
        }
    }
}
