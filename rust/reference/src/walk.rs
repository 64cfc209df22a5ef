//! The walk: nodes are visited in record order, and the first of 10 to 12 ends it.

use crate::answer::{Answer, Kind};
use crate::escape::escaped;
use crate::grammar::{Class, Grammar, Symbol};
use crate::limits::DEPTH;
use crate::templates::{Form, Path, Templates};
use crate::value::{Content, Value};

/// Walks an accepted set on a value of its declared type.
pub(crate) fn walk(
    grammar: &Grammar<'_>,
    set: &Templates<'_>,
    value: &Value<'_>,
    fuel: u32,
    out: &mut [u8],
) -> Answer {
    let mut walk = Walk {
        grammar,
        set,
        value,
        fuel,
        out,
        steps: 0,
        bytes: 0,
        variables: vec![0],
    };
    let end = walk.visit(set.templates[0].body, 1, 0);
    let (number, stream, place) = match end {
        Ok(()) => (0, 0, 0),
        Err(Stop { number, place }) => (number, Kind::Templates as u8, place),
    };
    Answer {
        number,
        stream,
        place,
        steps: walk.steps,
        bytes: walk.bytes,
    }
}

/// A limit that the walk met, at a node.
struct Stop {
    number: u8,
    place: usize,
}

/// The items of one sequence. Its fors bring items to it, and are none themselves.
struct Row<'a> {
    /// The record of the sequence.
    place: usize,
    separator: &'a [u8],
    /// Whether an item has been reached.
    begun: bool,
}

struct Walk<'a> {
    grammar: &'a Grammar<'a>,
    set: &'a Templates<'a>,
    value: &'a Value<'a>,
    fuel: u32,
    out: &'a mut [u8],
    steps: u32,
    bytes: usize,
    /// Values by their index. Each body entered has its own variables, from a base on.
    variables: Vec<usize>,
}

impl Walk<'_> {
    fn visit(&mut self, index: usize, depth: usize, base: usize) -> Result<(), Stop> {
        let set = self.set;
        let node = &set.nodes[index];
        self.count_step(node.place, depth)?;
        match &node.form {
            Form::Build { production } => self.build(index, *production, depth, base),
            Form::Expand { template, paths } => {
                let body = set.templates[usize::from(*template)].body;
                self.expand(body, paths, depth, base)
            }
            Form::If(path) => match self.value.items[self.find(path, base)].content {
                Content::YesNo(true) => self.visit(index + 1, depth + 1, base),
                Content::YesNo(false) => self.visit(set.nodes[index + 1].next, depth + 1, base),
                _ => unreachable!("an if's path finds a yes/no"),
            },
            Form::Match(path) => self.by_case(index, path, depth, base),
            Form::Literal(_) | Form::Place(_) => unreachable!("it stands for a class of a build"),
            Form::Sequence => unreachable!("a sequence stands for a repetition of a build"),
            Form::For(_) => unreachable!("a for stands in a sequence"),
        }
    }

    /// A node reached is tried for 10, counts one step, and is tried for 11.
    fn count_step(&mut self, place: usize, depth: usize) -> Result<(), Stop> {
        if self.steps == self.fuel {
            return Err(Stop { number: 10, place });
        }
        self.steps += 1;
        if depth > DEPTH {
            return Err(Stop { number: 11, place });
        }
        Ok(())
    }

    fn build(
        &mut self,
        index: usize,
        production: u16,
        depth: usize,
        base: usize,
    ) -> Result<(), Stop> {
        let grammar = self.grammar;
        let mut child = index + 1;
        for element in &grammar.productions[usize::from(production)].elements {
            match element.symbol {
                Symbol::Keyword(text) => {
                    self.write(text, self.set.nodes[index].place)?;
                    continue;
                }
                Symbol::Repetition(_, separator) => {
                    self.sequence(child, separator, depth + 1, base)?;
                }
                Symbol::Class(class) => self.lexeme(child, class, depth + 1, base)?,
                Symbol::Nonterminal(_) => self.visit(child, depth + 1, base)?,
            }
            child = self.set.nodes[child].next;
        }
        Ok(())
    }

    /// Visits a node in the position of a class. A literal is a lexeme already; a place finds a text
    /// of the plain class, which it escapes where the class is an escaped one.
    fn lexeme(&mut self, index: usize, class: u16, depth: usize, base: usize) -> Result<(), Stop> {
        let node = &self.set.nodes[index];
        self.count_step(node.place, depth)?;
        let path = match &node.form {
            Form::Literal(text) => return self.write(text, node.place),
            Form::Place(path) => path,
            _ => unreachable!("a literal or a place stands for a class"),
        };
        let Content::Text(text) = self.value.items[self.find(path, base)].content else {
            unreachable!("a place's path finds a text")
        };
        match self.grammar.classes[usize::from(class)] {
            Class::Plain(_) => self.write(text, node.place),
            Class::Escaped(_) => self.write(&escaped(text), node.place),
        }
    }

    /// Visits a sequence and its items, with the separator of its repetition between them.
    fn sequence(
        &mut self,
        index: usize,
        separator: &[u8],
        depth: usize,
        base: usize,
    ) -> Result<(), Stop> {
        let set = self.set;
        let place = set.nodes[index].place;
        self.count_step(place, depth)?;
        let mut row = Row {
            place,
            separator,
            begun: false,
        };
        for child in set.children(index) {
            match &set.nodes[child].form {
                Form::For(path) => self.repeat(child, path, &mut row, depth + 1, base)?,
                _ => self.item(child, &mut row, depth + 1, base)?,
            }
        }
        Ok(())
    }

    /// Visits an item of a sequence. The separator comes before every item but the first, and before
    /// the item's fuel and depth are tried.
    fn item(
        &mut self,
        index: usize,
        row: &mut Row<'_>,
        depth: usize,
        base: usize,
    ) -> Result<(), Stop> {
        if row.begun {
            self.write(row.separator, row.place)?;
        }
        row.begun = true;
        self.visit(index, depth, base)
    }

    /// Enters a body with a fresh set of variables, those that the paths find.
    fn expand(
        &mut self,
        body: usize,
        paths: &[Path],
        depth: usize,
        base: usize,
    ) -> Result<(), Stop> {
        let fresh = self.variables.len();
        for path in paths {
            self.variables.push(self.find(path, base));
        }
        self.visit(body, depth + 1, fresh)?;
        self.variables.truncate(fresh);
        Ok(())
    }

    /// Visits a for of a sequence, and its body once for each item, the item being one variable more.
    fn repeat(
        &mut self,
        index: usize,
        path: &Path,
        row: &mut Row<'_>,
        depth: usize,
        base: usize,
    ) -> Result<(), Stop> {
        self.count_step(self.set.nodes[index].place, depth)?;
        let value = self.value;
        for item in value.children(self.find(path, base)) {
            self.variables.push(item);
            self.item(index + 1, row, depth + 1, base)?;
            self.variables.pop();
        }
        Ok(())
    }

    /// Visits the arm of the case that a match's path finds, the content being one variable more.
    fn by_case(
        &mut self,
        index: usize,
        path: &Path,
        depth: usize,
        base: usize,
    ) -> Result<(), Stop> {
        let case = self.find(path, base);
        let Content::Case(number) = self.value.items[case].content else {
            unreachable!("a match's path finds a case")
        };
        let mut arms = self.set.children(index);
        let arm = arms.nth(number.into()).expect("an arm for each case");
        self.variables.push(case + 1);
        self.visit(arm, depth + 1, base)?;
        self.variables.pop();
        Ok(())
    }

    /// The value that a path finds: the variable, then field by field.
    fn find(&self, path: &Path, base: usize) -> usize {
        let variable = self.variables[base + path.variable];
        path.fields().iter().fold(variable, |record, &field| {
            self.value.field(record, field).expect("a typed path")
        })
    }

    /// Keywords, lexemes and separators are written whole or not at all.
    fn write(&mut self, text: &[u8], place: usize) -> Result<(), Stop> {
        match self.out[self.bytes..].get_mut(..text.len()) {
            Some(part) => {
                part.copy_from_slice(text);
                self.bytes += text.len();
                Ok(())
            }
            None => Err(Stop { number: 12, place }),
        }
    }
}
