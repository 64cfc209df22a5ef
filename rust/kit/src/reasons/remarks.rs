//! What is to be said of a refusal beside its line and its place: the rule that failed, and why.

use crate::reasons::bounds::bounds;
use crate::reasons::due::due;
use crate::reasons::escapes::escapes;
use crate::reasons::limits::limits;
use crate::reasons::named::named;
use crate::reasons::names::Names;
use crate::reasons::nodes::Form;
use crate::reasons::paper::Why;
use crate::reasons::typing::fault;
use crate::streams::record::Record;
use feed::{Refusal, Stream};

/// The records of three streams.
#[derive(Debug)]
pub struct Records {
    /// The grammar's.
    pub grammar: Vec<Record>,
    /// The templates'.
    pub templates: Vec<Record>,
    /// The value's.
    pub value: Vec<Record>,
}

/// What is to be said of a refusal.
#[derive(Debug)]
pub struct Told {
    /// What decides which of the paper's sentences it stands on.
    pub why: Why,
    /// The lines that say more of the offending record.
    pub said: Vec<String>,
}

/// What is to be said of a refusal.
pub fn told(refusal: Refusal, records: &Records, names: &Names) -> Told {
    let Records {
        grammar,
        templates,
        value,
    } = records;
    let plainly = |said| Told {
        why: Why::Number,
        said,
    };
    match refusal {
        Refusal::Limit { stream, record } => {
            plainly(limits(stream, templates, value, names, place(record)))
        }
        Refusal::Name { stream, record } => name(refusal, stream, place(record), records, names),
        Refusal::Class { record } => {
            plainly(bounds(grammar, names, place(record)).into_iter().collect())
        }
        Refusal::Typing { node } => match fault(grammar, templates, names, place(node)) {
            Some(fault) => Told {
                why: Why::Rule(fault.rule),
                said: fault.said,
            },
            None => plainly(Vec::new()),
        },
        Refusal::ValueType { record } => match due(grammar, templates, value, names, place(record))
        {
            Some((rule, said)) => Told {
                why: Why::Rule(rule),
                said,
            },
            None => plainly(Vec::new()),
        },
        Refusal::OutputFull { node } if is_sequence(templates, place(node)) => Told {
            why: Why::Separator,
            said: Vec::new(),
        },
        _ => plainly(Vec::new()),
    }
}

/// A record's index; one that no stream holds stays one.
fn place(record: u64) -> usize {
    usize::try_from(record).unwrap_or(usize::MAX)
}

/// A name that isn't there, or has to do with an escaped class.
fn name(refusal: Refusal, stream: Stream, place: usize, records: &Records, names: &Names) -> Told {
    let (grammar, templates) = (&records.grammar, &records.templates);
    let escaped = escapes(refusal, grammar, templates, names);
    if !escaped.is_empty() {
        return Told {
            why: Why::Escaped,
            said: escaped,
        };
    }
    let said = named(stream, grammar, templates, names, place);
    Told {
        why: Why::Number,
        said: said.into_iter().collect(),
    }
}

/// Whether a node is a sequence, which writes nothing but separators.
fn is_sequence(templates: &[Record], node: usize) -> bool {
    let head = templates.get(node).copied();
    head.and_then(Form::of) == Some(Form::Sequence)
}
