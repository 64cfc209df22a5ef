//! The row of a grammar's classes, of both kinds.

use crate::streams::record::Record;

/// A class of the row.
#[derive(Clone, Copy)]
pub enum Class<'a> {
    /// One with its own characters.
    Plain {
        /// Its record.
        head: Record,
        /// Its ranges.
        ranges: &'a [Record],
    },
    /// The escaped form of the class with this number.
    Escaped(u16),
}

/// The classes of a grammar whose layout is sound, by their numbers.
pub fn classes(grammar: &[Record]) -> Vec<Class<'_>> {
    let (mut found, mut at) = (Vec::new(), 0);
    while let Some(&head) = grammar.get(at) {
        at += 1;
        match head.kind() {
            1 => {
                let end = (at + usize::from(head.d())).min(grammar.len());
                let ranges = &grammar[at..end];
                found.push(Class::Plain { head, ranges });
                at = end;
            }
            5 => found.push(Class::Escaped(head.b())),
            _ => break,
        }
    }
    found
}
