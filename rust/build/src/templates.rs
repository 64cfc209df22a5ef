//! Template sets: types with fields, templates with parameters and a body.

use crate::blocks::blocks;
use crate::records::{close, record, text_units, word, Record};
use crate::TEMPLATES;

/// A template set to be built. Types and templates are numbered in the order they come in.
#[derive(Clone, Debug, Default)]
pub struct Templates {
    /// The types by number.
    pub types: Vec<Type>,
    /// The templates by number.
    pub templates: Vec<Template>,
}

/// A type.
#[derive(Clone, Debug, PartialEq, Eq)]
pub enum Type {
    /// Text of a class.
    Text(u16),
    /// Yes or no.
    YesNo,
    /// A list of a type.
    List(u16),
    /// A record of fields with these types.
    Record(Vec<u16>),
    /// A variant: one of several cases, whose contents have these types.
    Variant(Vec<u16>),
}

/// A template.
#[derive(Clone, Debug)]
pub struct Template {
    /// Its nonterminal.
    pub nonterminal: u16,
    /// The types of its parameters.
    pub parameters: Vec<u16>,
    /// Its body.
    pub body: Node,
}

/// A node of a body.
#[derive(Clone, Debug)]
pub enum Node {
    /// A build of a production: one child per element that is no keyword.
    Build(u16, Vec<Node>),
    /// A text as it stands.
    Literal(Vec<u8>),
    /// The text that a path finds.
    Place(Path),
    /// A template's body with the values that the paths find.
    Expand(u16, Vec<Path>),
    /// The first branch on yes, the second on no.
    If(Path, Box<[Node; 2]>),
    /// The body once for each item of the list that the path finds.
    For(Path, Box<Node>),
    /// Items in a row.
    Sequence(Vec<Node>),
    /// The arm of the case that the path finds, with the case's content as one variable more.
    Match(Path, Vec<Node>),
}

/// A path: a variable, then field by field.
#[derive(Clone, Debug, PartialEq, Eq)]
pub struct Path {
    /// The number of the variable: the parameters, then the loops and arms from outside in.
    pub variable: u8,
    /// The field numbers; only the first five can be said.
    pub fields: Vec<u8>,
}

impl Path {
    /// A variable itself.
    #[must_use]
    pub fn variable(variable: u8) -> Self {
        Path {
            variable,
            fields: Vec::new(),
        }
    }

    /// One step further, into a field.
    #[must_use]
    pub fn field(mut self, field: u8) -> Self {
        self.fields.push(field);
        self
    }

    fn record(&self) -> Record {
        let mut record = [0; 8];
        record[..3].copy_from_slice(&[6, self.variable, self.fields.len() as u8]);
        for (byte, field) in record[3..].iter_mut().zip(&self.fields) {
            *byte = *field;
        }
        record
    }
}

impl Node {
    /// A build of a production.
    pub fn build(production: u16, children: impl IntoIterator<Item = Node>) -> Self {
        Node::Build(production, children.into_iter().collect())
    }

    /// A literal text.
    pub fn literal(text: impl Into<Vec<u8>>) -> Self {
        Node::Literal(text.into())
    }

    /// A place for the text that a path finds.
    #[must_use]
    pub fn place(path: Path) -> Self {
        Node::Place(path)
    }

    /// An expand of a template.
    pub fn expand(template: u16, paths: impl IntoIterator<Item = Path>) -> Self {
        Node::Expand(template, paths.into_iter().collect())
    }

    /// An if with its two branches.
    #[must_use]
    pub fn either(path: Path, yes: Node, no: Node) -> Self {
        Node::If(path, Box::new([yes, no]))
    }

    /// A for over the list that a path finds.
    #[must_use]
    pub fn each(path: Path, body: Node) -> Self {
        Node::For(path, Box::new(body))
    }

    /// A sequence of items.
    pub fn sequence(items: impl IntoIterator<Item = Node>) -> Self {
        Node::Sequence(items.into_iter().collect())
    }

    /// A match on the case that a path finds, with an arm for each case.
    pub fn by_case(path: Path, arms: impl IntoIterator<Item = Node>) -> Self {
        Node::Match(path, arms.into_iter().collect())
    }

    fn push(&self, records: &mut Vec<Record>) {
        let head = records.len();
        records.push(self.head());
        match self {
            Node::Literal(text) => records.extend(text_units(text)),
            Node::Place(path) => records.push(path.record()),
            Node::Expand(_, paths) => records.extend(paths.iter().map(Path::record)),
            Node::If(path, branches) => {
                records.push(path.record());
                branches.iter().for_each(|branch| branch.push(records));
            }
            Node::For(path, body) => {
                records.push(path.record());
                body.push(records);
            }
            Node::Match(path, arms) => {
                records.push(path.record());
                arms.iter().for_each(|arm| arm.push(records));
            }
            Node::Build(_, below) | Node::Sequence(below) => {
                below.iter().for_each(|node| node.push(records));
            }
        }
        close(records, head);
    }

    /// The node's own record, its size still open.
    fn head(&self) -> Record {
        match self {
            Node::Build(production, children) => record(5, 0, *production, 0, word(children.len())),
            Node::Literal(text) => record(5, 1, word(text.len()), 0, 0),
            Node::Place(_) => record(5, 2, 0, 0, 0),
            Node::Expand(template, paths) => record(5, 3, *template, 0, word(paths.len())),
            Node::If(..) => record(5, 4, 0, 0, 0),
            Node::For(..) => record(5, 5, 0, 0, 0),
            Node::Sequence(items) => record(5, 6, 0, 0, word(items.len())),
            Node::Match(_, arms) => record(5, 7, 0, 0, word(arms.len())),
        }
    }
}

impl Templates {
    /// A template set with nothing in it.
    #[must_use]
    pub fn new() -> Self {
        Templates::default()
    }

    /// Adds a type and answers its number.
    pub fn add(&mut self, kind: Type) -> u16 {
        self.types.push(kind);
        word(self.types.len() - 1)
    }

    /// Adds the type of texts of a class.
    pub fn text(&mut self, class: u16) -> u16 {
        self.add(Type::Text(class))
    }

    /// Adds the type yes/no.
    pub fn yes_no(&mut self) -> u16 {
        self.add(Type::YesNo)
    }

    /// Adds the type of lists of a type, which may come later.
    pub fn list(&mut self, item: u16) -> u16 {
        self.add(Type::List(item))
    }

    /// Adds the type of records with fields of these types.
    pub fn record(&mut self, fields: impl IntoIterator<Item = u16>) -> u16 {
        self.add(Type::Record(fields.into_iter().collect()))
    }

    /// Adds the type of variants whose cases have contents of these types.
    pub fn variant(&mut self, cases: impl IntoIterator<Item = u16>) -> u16 {
        self.add(Type::Variant(cases.into_iter().collect()))
    }

    /// Adds a template and answers its number.
    pub fn template(
        &mut self,
        nonterminal: u16,
        parameters: impl IntoIterator<Item = u16>,
        body: Node,
    ) -> u16 {
        self.templates.push(Template {
            nonterminal,
            parameters: parameters.into_iter().collect(),
            body,
        });
        word(self.templates.len() - 1)
    }

    /// The records in order.
    ///
    /// # Panics
    /// A count, size or text's length over 65,535.
    #[must_use]
    pub fn records(&self) -> Vec<Record> {
        let mut records = Vec::new();
        for kind in &self.types {
            push_type(&mut records, kind);
        }
        for template in &self.templates {
            push_template(&mut records, template);
        }
        records
    }

    /// The packed stream.
    ///
    /// # Panics
    /// A count, size or text's length over 65,535.
    #[must_use]
    pub fn stream(&self) -> Vec<u8> {
        blocks(TEMPLATES, &self.records())
    }
}

fn push_type(records: &mut Vec<Record>, kind: &Type) {
    match kind {
        Type::Text(class) => records.push(record(1, 0, *class, 0, 0)),
        Type::YesNo => records.push(record(1, 1, 0, 0, 0)),
        Type::List(item) => records.push(record(1, 2, *item, 0, 0)),
        Type::Record(named) | Type::Variant(named) => {
            let form = if matches!(kind, Type::Record(_)) {
                3
            } else {
                4
            };
            records.push(record(1, form, 0, 0, word(named.len())));
            records.extend(named.iter().map(|&number| record(2, 0, number, 0, 0)));
        }
    }
}

fn push_template(records: &mut Vec<Record>, template: &Template) {
    let head = records.len();
    let parameters = template.parameters.len() as u8;
    records.push(record(3, parameters, template.nonterminal, 0, 0));
    let parameter = |&kind: &u16| record(4, 0, kind, 0, 0);
    records.extend(template.parameters.iter().map(parameter));
    template.body.push(records);
    close(records, head);
}
