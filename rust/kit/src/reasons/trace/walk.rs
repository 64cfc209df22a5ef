//! A walk taken again, up to the node where it met a limit.
//!
//! It writes nothing and has no output: it counts steps and bytes as the walk of document 01 does. That is
//! enough to know where the walk stopped:
//!
//! - 10 is the first node that is reached when the answer's steps are taken, since the fuel was just these;
//! - 11 is the first node at depth 201, as nothing is visited behind it;
//! - 12 is the first text, not an empty one, that was to be written when the answer's bytes were there: had
//!   it fitted, there would be more bytes. Steps and place alone would not do: a template that expands
//!   itself may have many of its builds open, and all their last keywords follow the same step.

use crate::reasons::classes::Class;
use crate::reasons::escapes::escaped_length;
use crate::reasons::limits::LEVELS;
use crate::reasons::nodes::{children, paths, steps, Form};
use crate::reasons::productions::text_length;
use crate::reasons::tables::Tables;
use crate::reasons::values;
use crate::streams::record::Record;
use feed::Answer;
use std::ops::ControlFlow;

/// A template that was entered, a for at one of its items, or a match at one of its arms.
#[derive(Clone, Copy, Debug, PartialEq, Eq)]
pub(super) enum Level {
    /// The template with this number.
    Template(usize),
    /// A for.
    For {
        /// Its node.
        node: usize,
        /// The number of the variable that it brings in.
        variable: usize,
        /// The number of the item, from 1; also where its separator is due, or its node isn't entered.
        item: usize,
        /// How many items there are.
        items: usize,
    },
    /// A match.
    Match {
        /// The node of the arm that is taken.
        arm: usize,
        /// The number of its case.
        case: usize,
        /// The number of the variable that it brings in.
        variable: usize,
    },
}

/// A text that is to be written, by the record that it follows.
#[derive(Clone, Copy, Debug, PartialEq, Eq)]
pub(super) enum Text {
    /// A keyword, behind its element.
    Keyword(usize),
    /// A separator, behind its element.
    Separator(usize),
    /// A literal, behind its node.
    Literal(usize),
    /// A text of the value that a place writes, plain or with its entities.
    Place(usize),
}

/// Where a walk stopped.
pub(super) struct Stop {
    /// The templates, fors and arms that it was in, the outermost first.
    pub(super) levels: Vec<Level>,
    /// The text that didn't fit, and how many bytes it takes.
    pub(super) unfit: Option<(Text, usize)>,
}

/// Takes a walk again until it stops.
pub(super) fn again(tables: &Tables<'_>, value: &[Record], answer: Answer) -> Option<Stop> {
    let mut walk = Walk {
        tables,
        value,
        answer,
        steps: 0,
        bytes: 0,
        variables: vec![0],
        levels: vec![Level::Template(0)],
        stopped: None,
        unfit: None,
    };
    let _ = walk.visit(Visit {
        node: tables.templates.first()?.body,
        element: None,
        depth: 1,
        base: 0,
    });
    // Another place or another count would be another set's answer.
    let place = usize::try_from(answer.place).ok();
    let stopped = walk.stopped.is_some() && walk.stopped == place && walk.steps == answer.steps;
    stopped.then_some(Stop {
        levels: walk.levels,
        unfit: walk.unfit,
    })
}

/// A node that is reached.
#[derive(Clone, Copy)]
struct Visit {
    node: usize,
    /// The record of the element that it stands for, if it is a child of a build.
    element: Option<usize>,
    depth: usize,
    /// Where its variables begin.
    base: usize,
}

impl Visit {
    /// A child or an entered body.
    fn below(self, node: usize, element: Option<usize>) -> Self {
        Self {
            node,
            element,
            depth: self.depth + 1,
            base: self.base,
        }
    }
}

/// Goes on, or stops with the levels as they are.
type Walked = ControlFlow<()>;

const ON: Walked = ControlFlow::Continue(());
const STOP: Walked = ControlFlow::Break(());

struct Walk<'a> {
    tables: &'a Tables<'a>,
    value: &'a [Record],
    answer: Answer,
    steps: u64,
    bytes: u64,
    /// The records of the values. Each body entered has its own variables, from a base on.
    variables: Vec<usize>,
    levels: Vec<Level>,
    /// The node where the limit was met.
    stopped: Option<usize>,
    /// The text that didn't fit.
    unfit: Option<(Text, usize)>,
}

/// The items of one sequence; its fors bring items to it, and are none themselves.
struct Row {
    sequence: usize,
    /// The record of the repetition, which the separator follows.
    element: usize,
    separator: usize,
    begun: bool,
}

impl Walk<'_> {
    /// Visits a node and all below it. Recursion is bounded, since no level is past 201.
    fn visit(&mut self, at: Visit) -> Walked {
        self.reach(at)?;
        let Some(&head) = self.tables.records.get(at.node) else {
            return STOP;
        };
        match Form::of(head) {
            Some(Form::Build) => self.build(at, head.b()),
            Some(Form::Literal) => {
                self.write(at.node, Text::Literal(at.node), usize::from(head.b()))
            }
            Some(Form::Place) => self.place(at),
            Some(Form::Expand) => self.expand(at, usize::from(head.b())),
            Some(Form::If) => self.branch(at),
            Some(Form::Match) => self.arm(at),
            Some(Form::Sequence) => self.sequence(at),
            // A for stands in a sequence, which visits it itself.
            Some(Form::For) | None => STOP,
        }
    }

    fn stop(&mut self, node: usize) -> Walked {
        self.stopped = Some(node);
        STOP
    }

    /// A node reached is tried for 10, counts one step, and is tried for 11.
    fn reach(&mut self, at: Visit) -> Walked {
        if self.steps == self.answer.steps {
            // Else it is another set's answer, and the walk is given up.
            return match self.answer.number {
                10 => self.stop(at.node),
                _ => STOP,
            };
        }
        self.steps += 1;
        match at.depth > LEVELS {
            true => self.stop(at.node),
            false => ON,
        }
    }

    /// A text that is to be written by a node. An empty one always fits.
    fn write(&mut self, node: usize, text: Text, length: usize) -> Walked {
        if self.answer.number == 12 && length > 0 && self.bytes == self.answer.bytes {
            self.unfit = Some((text, length));
            return self.stop(node);
        }
        self.bytes += length as u64;
        ON
    }

    fn build(&mut self, at: Visit, production: u16) -> Walked {
        let tables = self.tables;
        let mut nodes = children(tables.records, at.node);
        let production = tables.productions.get(usize::from(production));
        for &record in production.map_or(&[][..], |it| &it.elements) {
            let element = tables.grammar[record];
            if element.a() == 0 {
                self.write(at.node, Text::Keyword(record), text_length(element))?;
                continue;
            }
            let Some(node) = nodes.next() else {
                return STOP;
            };
            self.visit(at.below(node, Some(record)))?;
        }
        ON
    }

    fn place(&mut self, at: Visit) -> Walked {
        let path = paths(self.tables.records, at.node).next();
        let Some(text) = path.and_then(|path| self.find(path, at.base)) else {
            return STOP;
        };
        let element = at
            .element
            .and_then(|record| self.tables.grammar.get(record));
        let class = element.map(|element| usize::from(element.b()));
        let escaped = class
            .is_some_and(|class| matches!(self.tables.classes.get(class), Some(Class::Escaped(_))));
        let length = usize::from(self.value[text].b());
        let bytes = self.value[text + 1..].iter().flat_map(|unit| unit.0);
        let length = match escaped {
            true => escaped_length(bytes.take(length)),
            false => length,
        };
        self.write(at.node, Text::Place(text), length)
    }

    fn branch(&mut self, at: Visit) -> Walked {
        let path = paths(self.tables.records, at.node).next();
        let Some(found) = path.and_then(|path| self.find(path, at.base)) else {
            return STOP;
        };
        let taken = usize::from(self.value[found].a() == 0);
        match children(self.tables.records, at.node).nth(taken) {
            Some(node) => self.visit(at.below(node, None)),
            None => STOP,
        }
    }

    /// Takes the arm of the case that the path finds, the case's content being one variable more.
    fn arm(&mut self, at: Visit) -> Walked {
        let path = paths(self.tables.records, at.node).next();
        let Some(found) = path.and_then(|path| self.find(path, at.base)) else {
            return STOP;
        };
        let case = usize::from(self.value[found].a());
        let arm = children(self.tables.records, at.node).nth(case);
        let (Some(arm), Some(content)) = (arm, values::children(self.value, found).next()) else {
            return STOP;
        };
        let variable = self.variables.len() - at.base;
        self.levels.push(Level::Match {
            arm,
            case,
            variable,
        });
        self.variables.push(content);
        self.visit(at.below(arm, None))?;
        self.variables.pop();
        self.levels.pop();
        ON
    }

    /// Enters a body with a fresh set of variables, those that the paths find.
    fn expand(&mut self, at: Visit, number: usize) -> Walked {
        let Some(template) = self.tables.templates.get(number) else {
            return STOP;
        };
        let (body, fresh) = (template.body, self.variables.len());
        for path in paths(self.tables.records, at.node) {
            let Some(found) = self.find(path, at.base) else {
                return STOP;
            };
            self.variables.push(found);
        }
        // At depth 201 the body isn't entered, but its expand was: the level is part of the way there.
        self.levels.push(Level::Template(number));
        let mut below = at.below(body, None);
        below.base = fresh;
        self.visit(below)?;
        self.levels.pop();
        self.variables.truncate(fresh);
        ON
    }

    fn sequence(&mut self, at: Visit) -> Walked {
        let tables = self.tables;
        let element = at.element.unwrap_or_default();
        let separator = tables.grammar.get(element).copied();
        let mut row = Row {
            sequence: at.node,
            element,
            separator: separator.map_or(0, text_length),
            begun: false,
        };
        for node in children(tables.records, at.node) {
            let below = at.below(node, None);
            match tables.records.get(node).copied().and_then(Form::of) {
                Some(Form::For) => self.repeat(below, &mut row)?,
                _ => self.item(below, &mut row)?,
            }
        }
        ON
    }

    /// An item of a sequence: the separator comes first, but before the first item.
    fn item(&mut self, at: Visit, row: &mut Row) -> Walked {
        if std::mem::replace(&mut row.begun, true) {
            let text = Text::Separator(row.element);
            self.write(row.sequence, text, row.separator)?;
        }
        self.visit(at)
    }

    /// A for, and its body once for each item, the item being one variable more.
    fn repeat(&mut self, at: Visit, row: &mut Row) -> Walked {
        self.reach(at)?;
        let path = paths(self.tables.records, at.node).next();
        let found = path.and_then(|path| self.find(path, at.base));
        let body = children(self.tables.records, at.node).next();
        let (Some(list), Some(body)) = (found, body) else {
            return STOP;
        };
        let (value, variable) = (self.value, self.variables.len() - at.base);
        let items = usize::from(value[list].d());
        for (item, child) in (1..).zip(values::children(value, list)) {
            self.levels.push(Level::For {
                node: at.node,
                variable,
                item,
                items,
            });
            self.variables.push(child);
            self.item(at.below(body, None), row)?;
            self.variables.pop();
            self.levels.pop();
        }
        ON
    }

    /// The value that a path finds: the variable, then field by field.
    fn find(&self, path: usize, base: usize) -> Option<usize> {
        let (variable, fields) = steps(self.tables.records.get(path)?);
        let start = self.variables.get(base + variable).copied();
        fields.iter().fold(start, |record, &field| {
            values::children(self.value, record?).nth(usize::from(field))
        })
    }
}
