//! The templates of a stream whose layout is sound: their bodies, the nodes below a node, and its paths.

use crate::streams::record::Record;
use std::fmt;
use std::ops::Range;

/// The form of a node.
#[derive(Clone, Copy, Debug, PartialEq, Eq)]
pub enum Form {
    /// Form 0.
    Build,
    /// Form 1.
    Literal,
    /// Form 2.
    Place,
    /// Form 3.
    Expand,
    /// Form 4.
    If,
    /// Form 5.
    For,
    /// Form 6.
    Sequence,
    /// Form 7.
    Match,
}

impl Form {
    /// The form of a node's head.
    pub fn of(head: Record) -> Option<Self> {
        Some(match (head.kind(), head.a()) {
            (5, 0) => Self::Build,
            (5, 1) => Self::Literal,
            (5, 2) => Self::Place,
            (5, 3) => Self::Expand,
            (5, 4) => Self::If,
            (5, 5) => Self::For,
            (5, 6) => Self::Sequence,
            (5, 7) => Self::Match,
            _ => return None,
        })
    }
}

impl fmt::Display for Form {
    fn fmt(&self, f: &mut fmt::Formatter<'_>) -> fmt::Result {
        f.write_str(match self {
            Self::Build => "a build",
            Self::Literal => "a literal",
            Self::Place => "a place",
            Self::Expand => "an expand",
            Self::If => "an if",
            Self::For => "a for",
            Self::Sequence => "a sequence",
            Self::Match => "a match",
        })
    }
}

/// A template of the row.
#[derive(Clone, Debug, PartialEq, Eq)]
pub struct Template {
    /// Its head.
    pub head: usize,
    /// Its nonterminal.
    pub nonterminal: u16,
    /// The records of its parameters.
    pub parameters: Range<usize>,
    /// Its body.
    pub body: usize,
    /// The record behind it.
    pub end: usize,
}

/// The templates of a stream, whose first stands at a record, by their numbers.
pub fn row(records: &[Record], first: usize) -> Vec<Template> {
    let (mut found, mut at) = (Vec::new(), first);
    while let Some(head) = records.get(at).filter(|head| head.kind() == 3) {
        let body = at + 1 + usize::from(head.a());
        let end = at + usize::from(head.c()).max(1);
        found.push(Template {
            head: at,
            nonterminal: head.b(),
            parameters: at + 1..body,
            body,
            end,
        });
        at = end;
    }
    found
}

/// The nodes right below a node.
pub fn children(records: &[Record], node: usize) -> impl Iterator<Item = usize> + '_ {
    let head = records.get(node).copied();
    let (first, count) = match head.and_then(Form::of) {
        Some(Form::Build | Form::Sequence) => (node + 1, head.map_or(0, Record::d)),
        Some(Form::If) => (node + 2, 2),
        Some(Form::For) => (node + 2, 1),
        Some(Form::Match) => (node + 2, head.map_or(0, Record::d)),
        _ => (node, 0),
    };
    let next = |&at: &usize| {
        let child = records.get(at)?;
        Some(at + usize::from(child.c()).max(1))
    };
    std::iter::successors(Some(first), next)
        .take(usize::from(count))
        .filter(|&child| child < records.len())
}

/// The nodes from a body down to a node, both with them.
pub fn down_to(records: &[Record], body: usize, node: usize) -> Option<Vec<usize>> {
    let mut found = vec![body];
    let mut at = body;
    while at != node {
        at = children(records, at)
            .take_while(|&child| child <= node)
            .last()?;
        found.push(at);
    }
    Some(found)
}

/// The records of a node's paths.
pub fn paths(records: &[Record], node: usize) -> Range<usize> {
    let head = records.get(node).copied();
    let count = match head.and_then(Form::of) {
        Some(Form::Place | Form::If | Form::For | Form::Match) => 1,
        Some(Form::Expand) => head.map_or(0, Record::d),
        _ => 0,
    };
    let first = (node + 1).min(records.len());
    first..(first + usize::from(count)).min(records.len())
}

/// The variable that a path starts from, and the fields that it goes along.
pub fn steps(path: &Record) -> (usize, &[u8]) {
    let count = usize::from(path.0[2]).min(5);
    (usize::from(path.a()), &path.0[3..3 + count])
}
