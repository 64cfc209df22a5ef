//! The templates stream: types with their fields, then templates with parameters and a body.

use crate::records::{ask, Broken, Nesting, Reader, Record, Records};

/// A variant has at most so many cases, and at least one.
const CASES: u16 = 256;

/// A template set whose layout holds.
pub(crate) struct Templates<'a> {
    pub(crate) types: Vec<Type>,
    pub(crate) templates: Vec<Template>,
    /// The nodes of all bodies in record order.
    pub(crate) nodes: Vec<Node<'a>>,
}

/// A type, numbered by order from 0.
pub(crate) struct Type {
    pub(crate) place: usize,
    pub(crate) shape: Shape,
}

/// What values a type has.
pub(crate) enum Shape {
    Text(u16),
    YesNo,
    List(u16),
    Record(Vec<TypeName>),
    /// One of these cases.
    Variant(Vec<TypeName>),
}

/// A field or parameter record: it names a type. The cases of a variant are field records, too.
pub(crate) struct TypeName {
    pub(crate) place: usize,
    pub(crate) number: u16,
}

/// A template, numbered by order from 0.
pub(crate) struct Template {
    pub(crate) place: usize,
    pub(crate) nonterminal: u16,
    pub(crate) parameters: Vec<TypeName>,
    /// The index of its body in the table of nodes.
    pub(crate) body: usize,
}

/// A node of a body. Its children follow it in the table, each with all that is below it.
pub(crate) struct Node<'a> {
    pub(crate) place: usize,
    /// The body counts 1.
    pub(crate) depth: usize,
    /// The index behind all that is below it.
    pub(crate) next: usize,
    pub(crate) form: Form<'a>,
}

/// The eight forms of a node.
pub(crate) enum Form<'a> {
    Build {
        production: u16,
    },
    Literal(&'a [u8]),
    Place(Path),
    Expand {
        template: u16,
        paths: Vec<Path>,
    },
    If(Path),
    For(Path),
    Sequence,
    /// Its children are its arms.
    Match(Path),
}

/// A path: a variable, then field by field.
#[derive(Clone, Copy)]
pub(crate) struct Path {
    pub(crate) variable: usize,
    fields: [u8; 5],
    steps: u8,
}

impl Path {
    /// The field numbers, from outside in.
    pub(crate) fn fields(&self) -> &[u8] {
        &self.fields[..usize::from(self.steps)]
    }
}

impl<'a> Templates<'a> {
    /// Reads the layout of a templates stream.
    pub(crate) fn read(records: &'a Records) -> Result<Self, Broken> {
        let mut reader = records.reader();
        let mut types = Vec::new();
        while reader.next_kind() == Some(1) {
            types.push(read_type(&mut reader)?);
        }
        let mut templates = Vec::new();
        let mut nodes = Vec::new();
        while reader.next_kind() == Some(3) {
            templates.push(read_template(&mut reader, &mut nodes)?);
        }
        reader.finish()?;
        Ok(Templates {
            types,
            templates,
            nodes,
        })
    }

    /// The indexes of a node's children, in order.
    pub(crate) fn children(&self, node: usize) -> impl Iterator<Item = usize> + '_ {
        let end = self.nodes[node].next;
        let within = move |&child: &usize| child < end;
        std::iter::successors(Some(node + 1).filter(within), move |&child| {
            Some(self.nodes[child].next).filter(within)
        })
    }

    /// The nodes of a template, in record order.
    pub(crate) fn nodes_of(&self, template: &Template) -> &[Node<'a>] {
        &self.nodes[template.body..self.nodes[template.body].next]
    }
}

fn read_type(reader: &mut Reader<'_>) -> Result<Type, Broken> {
    let place = reader.place();
    let head = reader.record_of(1)?;
    let (b, c, d) = (head.b(), head.c(), head.d());
    ask(c == 0)?;
    let shape = match head.a() {
        0 if d == 0 => Shape::Text(b),
        1 if b == 0 && d == 0 => Shape::YesNo,
        2 if d == 0 => Shape::List(b),
        3 if b == 0 => Shape::Record(read_type_names(reader, 2, d.into())?),
        4 if b == 0 && (1..=CASES).contains(&d) => {
            Shape::Variant(read_type_names(reader, 2, d.into())?)
        }
        _ => return Err(Broken),
    };
    Ok(Type { place, shape })
}

/// Reads so many fields or cases (kind 2) or parameters (kind 4).
fn read_type_names(
    reader: &mut Reader<'_>,
    kind: u8,
    count: usize,
) -> Result<Vec<TypeName>, Broken> {
    let mut names = Vec::new();
    for _ in 0..count {
        let place = reader.place();
        let record = reader.record_of(kind)?;
        ask(record.a() == 0 && record.c() == 0 && record.d() == 0)?;
        let number = record.b();
        names.push(TypeName { place, number });
    }
    Ok(names)
}

fn read_template<'a>(
    reader: &mut Reader<'a>,
    nodes: &mut Vec<Node<'a>>,
) -> Result<Template, Broken> {
    let place = reader.place();
    let head = reader.record_of(3)?;
    ask(head.d() == 0)?;
    let parameters = read_type_names(reader, 4, head.a().into())?;
    let body = nodes.len();
    read_tree(reader, nodes)?;
    ask(reader.place() == place + usize::from(head.c()))?;
    Ok(Template {
        place,
        nonterminal: head.b(),
        parameters,
        body,
    })
}

/// Reads one node and all below it.
fn read_tree<'a>(reader: &mut Reader<'a>, nodes: &mut Vec<Node<'a>>) -> Result<(), Broken> {
    let mut nesting = Nesting::default();
    loop {
        let (place, depth) = (reader.place(), nesting.depth());
        let head = reader.record_of(5)?;
        let (form, children) = read_form(reader, head)?;
        nesting.open(nodes.len(), place + usize::from(head.c()), children);
        nodes.push(Node {
            place,
            depth,
            next: 0,
            form,
        });
        while let Some(closed) = nesting.close(reader.place())? {
            nodes[closed].next = nodes.len();
        }
        if nesting.is_done() {
            return Ok(());
        }
    }
}

/// Reads what stands between a node's head and its children, and says how many of these there are.
fn read_form<'a>(reader: &mut Reader<'a>, head: Record) -> Result<(Form<'a>, u16), Broken> {
    let (b, d) = (head.b(), head.d());
    let bare = b == 0 && d == 0;
    Ok(match head.a() {
        0 => (Form::Build { production: b }, d),
        1 if d == 0 => (Form::Literal(reader.text(b)?), 0),
        2 if bare => (Form::Place(read_path(reader)?), 0),
        3 => (read_expand(reader, b, d)?, 0),
        4 if bare => (Form::If(read_path(reader)?), 2),
        5 if bare => (Form::For(read_path(reader)?), 1),
        6 if b == 0 => (Form::Sequence, d),
        7 if b == 0 => (Form::Match(read_path(reader)?), d),
        _ => return Err(Broken),
    })
}

fn read_expand<'a>(reader: &mut Reader<'a>, template: u16, count: u16) -> Result<Form<'a>, Broken> {
    let mut paths = Vec::new();
    for _ in 0..count {
        paths.push(read_path(reader)?);
    }
    Ok(Form::Expand { template, paths })
}

fn read_path(reader: &mut Reader<'_>) -> Result<Path, Broken> {
    let Record([_, variable, steps, fields @ ..]) = reader.record_of(6)?;
    let unused = fields.get(usize::from(steps)..).ok_or(Broken)?;
    ask(unused.iter().all(|&field| field == 0))?;
    Ok(Path {
        variable: variable.into(),
        fields,
        steps,
    })
}
