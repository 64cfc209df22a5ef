//! A description as a tree: what the parser reads and the assembler writes out.

use crate::mistake::Position;
use crate::words::key;
use std::fmt;

/// A whole description. Each row is in the order of the file.
#[derive(Debug, Default)]
pub struct Description {
    /// The classes.
    pub classes: Vec<Class>,
    /// The productions.
    pub productions: Vec<Production>,
    /// The types.
    pub types: Vec<Type>,
    /// The templates.
    pub templates: Vec<Template>,
    /// The value.
    pub value: Option<Value>,
}

/// A name, and where it stands.
#[derive(Clone, Debug)]
pub struct Name {
    /// The name.
    pub word: String,
    /// Where it stands.
    pub at: Position,
}

/// A text, and where it stands.
#[derive(Clone, Debug)]
pub struct Text {
    /// Its bytes.
    pub bytes: Vec<u8>,
    /// Where it stands.
    pub at: Position,
}

/// A class of lexemes.
#[derive(Debug)]
pub struct Class {
    /// Its name.
    pub name: Name,
    /// What it is.
    pub form: ClassForm,
}

/// What a class is.
#[derive(Debug)]
pub enum ClassForm {
    /// One with its own characters.
    Plain {
        /// The least characters.
        least: u16,
        /// The most characters.
        most: u16,
        /// The ranges.
        ranges: Vec<Range>,
    },
    /// The escaped form of another class.
    Escaped(Name),
}

/// A range of code points, and where it stands.
#[derive(Clone, Copy, Debug)]
pub struct Range {
    /// Where it stands.
    pub at: Position,
    /// The lowest code point.
    pub lowest: u32,
    /// The highest.
    pub highest: u32,
}

/// A production of a nonterminal.
#[derive(Debug)]
pub struct Production {
    /// Its own name, by which a build names it.
    pub name: Name,
    /// Its nonterminal.
    pub nonterminal: Name,
    /// Its elements.
    pub elements: Vec<Element>,
}

/// An element of a production.
#[derive(Debug)]
pub enum Element {
    /// A text that is written as it stands.
    Keyword(Text),
    /// A class or a nonterminal.
    One(Name),
    /// A repetition of a nonterminal, with a separator or without.
    Many(Name, Option<Text>),
}

/// A type.
#[derive(Debug)]
pub struct Type {
    /// Its name.
    pub name: Name,
    /// What it is.
    pub form: TypeForm,
}

/// What a type is.
#[derive(Debug)]
pub enum TypeForm {
    /// A text of a class.
    Text(Name),
    /// Yes or no.
    YesNo,
    /// A list of a type.
    List(Name),
    /// A record.
    Record(Vec<Field>),
    /// One of several cases.
    Variant(Vec<Field>),
}

/// A field of a record, a case of a variant, or a parameter of a template.
#[derive(Debug)]
pub struct Field {
    /// Its name.
    pub name: Name,
    /// The name of its type.
    pub of: Name,
}

/// A template.
#[derive(Debug)]
pub struct Template {
    /// Its name.
    pub name: Name,
    /// Its parameters.
    pub parameters: Vec<Field>,
    /// Its nonterminal.
    pub nonterminal: Name,
    /// Its body.
    pub body: Node,
}

impl Element {
    /// Where it stands.
    pub fn at(&self) -> Position {
        match self {
            Self::Keyword(text) => text.at,
            Self::One(name) | Self::Many(name, _) => name.at,
        }
    }
}

/// A node of a template, and where it stands.
#[derive(Debug)]
pub struct Node {
    /// Where it stands.
    pub at: Position,
    /// What it is.
    pub form: NodeForm,
}

/// What a node is.
#[derive(Debug)]
pub enum NodeForm {
    /// A production, with a child for each element that is no keyword.
    Build(Name, Vec<Node>),
    /// A text that is written as it stands.
    Literal(Text),
    /// The text that a path finds.
    Place(Path),
    /// A template, with a path for each parameter.
    Expand(Name, Vec<Path>),
    /// The first node on yes, the second on no.
    If(Path, Box<Node>, Box<Node>),
    /// The node once for each item, which has the name.
    For(Name, Path, Box<Node>),
    /// The nodes in their order.
    Sequence(Vec<Node>),
    /// The node of the arm whose case stands there.
    Match(Path, Vec<Arm>),
}

/// An arm of a match.
#[derive(Debug)]
pub struct Arm {
    /// The case that it is for.
    pub case: Step,
    /// The name that the case's content has in the node.
    pub content: Name,
    /// Its node.
    pub node: Node,
}

/// A path: a variable, then field by field.
#[derive(Debug)]
pub struct Path {
    /// The variable.
    pub variable: Step,
    /// The fields.
    pub fields: Vec<Step>,
}

impl Path {
    /// The path as it is written.
    pub fn written(&self) -> String {
        let steps = std::iter::once(&self.variable).chain(&self.fields);
        let words: Vec<String> = steps.map(|step| step.by.to_string()).collect();
        words.join(".")
    }
}

/// A variable, a field or a case, by its name or by its number.
#[derive(Debug)]
pub struct Step {
    /// The name or number.
    pub by: By,
    /// Where it stands.
    pub at: Position,
}

/// How a step says which one it means.
#[derive(Debug)]
pub enum By {
    /// By a name that is known there.
    Name(String),
    /// By a number, known or not.
    Number(u8),
}

impl fmt::Display for By {
    fn fmt(&self, f: &mut fmt::Formatter<'_>) -> fmt::Result {
        match self {
            Self::Name(word) => f.write_str(&key(word)),
            Self::Number(number) => write!(f, "{number}"),
        }
    }
}

/// A value, and where it stands.
#[derive(Debug)]
pub struct Value {
    /// Where it stands.
    pub at: Position,
    /// What it is.
    pub form: ValueForm,
}

/// What a value is.
#[derive(Debug)]
pub enum ValueForm {
    /// A text.
    Text(Text),
    /// Yes or no.
    YesNo(bool),
    /// A list of items.
    List(Vec<Value>),
    /// A record of children, each with the label that may stand before it.
    Record(Vec<(Option<Name>, Value)>),
    /// A case of a variant, with its content.
    Case(Step, Box<Value>),
}
