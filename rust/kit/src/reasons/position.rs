//! What the position of a node of the templates asks for, who asks, and which variables are known there.
//!
//! The streams have a sound layout here, and name what exists.

use crate::reasons::names::{Binder, Names};
use crate::reasons::nodes::{children, paths, steps, Form};
use crate::reasons::tables::Tables;
use crate::reasons::types::Shape;
use crate::streams::record::Record;

/// What a position asks for, with its number.
#[derive(Clone, Copy, Debug, PartialEq, Eq)]
pub enum Position {
    /// A text of a class.
    Class(u16),
    /// A node of a nonterminal.
    Nonterminal(u16),
    /// A sequence of nodes of a nonterminal.
    Repetition(u16),
    /// An item of a sequence: a node of the nonterminal, or a for.
    Item(u16),
}

impl Position {
    /// What an element of a production asks a child for; a keyword asks for none.
    pub fn of(element: Record) -> Option<Self> {
        match element.a() {
            1 => Some(Self::Class(element.b())),
            2 => Some(Self::Nonterminal(element.b())),
            3 | 4 => Some(Self::Repetition(element.b())),
            _ => None,
        }
    }

    /// What is asked of the body of a for, a branch of an if or an arm of a match that stands here.
    fn of_branch(self) -> Self {
        match self {
            Self::Item(number) => Self::Nonterminal(number),
            other => other,
        }
    }

    /// What is asked for, by name.
    pub fn called(self, names: &Names) -> String {
        match self {
            Self::Class(number) => names.class(number),
            Self::Nonterminal(number) | Self::Item(number) => names.nonterminal(number),
            Self::Repetition(number) => {
                format!("a repetition of {}", names.nonterminal(number))
            }
        }
    }
}

/// Who asks for what stands at a node.
#[derive(Clone, Copy, Debug, PartialEq, Eq)]
pub enum Asker {
    /// The template with this number, for its body.
    Template(usize),
    /// An element of the production that the build above is of.
    Element {
        /// The production's number.
        production: u16,
        /// The element's number among all of the production, from 1.
        element: usize,
        /// The element's record.
        record: usize,
        /// The number of the child that stands for it, from 1.
        child: usize,
    },
    /// A sequence, for one of its items.
    Sequence,
    /// A for, for its body.
    For,
    /// An if, for its first branch or its second.
    If {
        /// Whether it is the first.
        first: bool,
    },
    /// A match, for the arm of a case.
    Match {
        /// The number of the arm, which is that of its case.
        arm: usize,
        /// The arm's node.
        node: usize,
    },
}

impl Asker {
    /// The asker in words, as they follow "is asked for here".
    pub fn called(self, names: &Names) -> String {
        match self {
            Self::Template(number) => format!("as the body of {}", names.template(number)),
            Self::Element {
                production,
                element,
                child,
                ..
            } => {
                let which = format!("by element {element} of {}", names.production(production));
                match child == element {
                    true => which,
                    false => format!("{which} (child {child})"),
                }
            }
            Self::Sequence => "as an item of the sequence".to_string(),
            Self::For => "as the body of the for".to_string(),
            Self::If { first: true } => "as the first branch of the if".to_string(),
            Self::If { first: false } => "as the second branch of the if".to_string(),
            Self::Match { arm, node } => format!("as the arm of {}", names.arm(arm, node)),
        }
    }
}

/// A variable that is known at a node.
#[derive(Clone, Copy, Debug, PartialEq, Eq)]
pub struct Variable {
    /// What brings it in.
    pub binder: Binder,
    /// The number of its type; of a for over something that is no list there is none, nor of an arm for
    /// something that is no case.
    pub type_number: Option<usize>,
}

/// Where a node stands.
#[derive(Clone, Debug)]
pub struct Site {
    /// The node.
    pub node: usize,
    /// What is asked for there.
    pub position: Position,
    /// Who asks for it.
    pub asker: Asker,
    /// The variables known there, by their numbers: the parameters, then the fors and arms from outside in.
    pub scope: Vec<Variable>,
}

/// Where a node stands.
pub fn site(tables: &Tables<'_>, node: usize) -> Option<Site> {
    let number = tables.template_around(node)?;
    let template = &tables.templates[number];
    let typed = |record: usize| Variable {
        binder: Binder::Own(record),
        type_number: tables.records.get(record).map(|it| usize::from(it.b())),
    };
    let mut site = Site {
        node: template.body,
        position: Position::Nonterminal(template.nonterminal),
        asker: Asker::Template(number),
        scope: template.parameters.clone().map(typed).collect(),
    };
    while site.node != node {
        site = site.below(tables, node)?;
    }
    Some(site)
}

impl Site {
    /// Where the child stands that holds a record.
    fn below(mut self, tables: &Tables<'_>, record: usize) -> Option<Self> {
        let (node, head) = (self.node, *tables.records.get(self.node)?);
        let row = (0..).zip(children(tables.records, node));
        let (child, start) = row.take_while(|&(_, start)| start <= record).last()?;
        (self.position, self.asker) = match (Form::of(head)?, self.position) {
            (Form::Build, _) => asked_of(tables, head.b(), child)?,
            (Form::Sequence, Position::Repetition(number)) => {
                (Position::Item(number), Asker::Sequence)
            }
            (Form::For, position) => (position.of_branch(), Asker::For),
            (Form::If, position) => (position.of_branch(), Asker::If { first: child == 0 }),
            (Form::Match, position) => {
                let (arm, node) = (child, start);
                (position.of_branch(), Asker::Match { arm, node })
            }
            (_, position) => (position, Asker::Sequence),
        };
        self.scope.extend(self.brought(tables, child, start));
        self.node = start;
        Some(self)
    }

    /// The variable that a for here brings in for its body, or a match for one of its arms.
    fn brought(&self, tables: &Tables<'_>, child: usize, start: usize) -> Option<Variable> {
        let found = self.found(tables);
        let shape = found.and_then(|number| tables.types.shape(number));
        match Form::of(*tables.records.get(self.node)?)? {
            Form::For => Some(Variable {
                binder: Binder::Own(self.node),
                type_number: match shape {
                    Some(Shape::List(item)) => Some(item),
                    _ => None,
                },
            }),
            Form::Match => Some(Variable {
                binder: Binder::Arm(start),
                type_number: found.and_then(|number| tables.types.case(number, child)),
            }),
            _ => None,
        }
    }

    /// The type that the path of the for or match here finds.
    fn found(&self, tables: &Tables<'_>) -> Option<usize> {
        let path = paths(tables.records, self.node).next()?;
        let (variable, fields) = steps(tables.records.get(path)?);
        let start = self.scope.get(variable)?.type_number;
        let along = |number: Option<usize>, &field: &u8| {
            number.and_then(|number| tables.types.field(number, usize::from(field)))
        };
        fields.iter().fold(start, along)
    }
}

/// What a production asks of a child of its builds.
fn asked_of(tables: &Tables<'_>, production: u16, child: usize) -> Option<(Position, Asker)> {
    let (element, record) = *tables.asking(production).get(child)?;
    let asker = Asker::Element {
        production,
        element,
        record,
        child: child + 1,
    };
    Some((Position::of(*tables.grammar.get(record)?)?, asker))
}
