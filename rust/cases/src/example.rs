//! The paper's example, and the sets that cases share.

use crate::case::{Case, Set};
use crate::records::Records;
use build::{Element, Grammar, Node, Path, Record, Templates, Value};

/// The example's grammar. Class 0 has records 0 to 2, production 0 has 3 to 8, production 1 has 9
/// to 14.
#[must_use]
pub fn grammar() -> Records {
    let keyword = |text: &str| Element::keyword(text);
    let mut grammar = Grammar::new();
    grammar.class(1, 4, &[(0x61, 0x7A), (0x370, 0x3FF)]);
    grammar.production(0, [keyword("["), Element::Repetition(1), keyword("]")]);
    grammar.production(1, [keyword("<"), Element::Class(0), keyword(">")]);
    grammar.records().into()
}

/// Type 0, text of class 0, and type 1, the list of it; no template yet.
#[must_use]
pub fn types() -> Templates {
    let mut templates = Templates::new();
    let title = templates.text(0);
    templates.list(title);
    templates
}

/// The two types (records 0 and 1), and template 0 of nonterminal 0 with one parameter of type 1
/// (records 2 and 3) and this body.
#[must_use]
pub fn template(body: Node) -> Records {
    let mut templates = types();
    templates.template(0, [1], body);
    templates.records().into()
}

/// The entries of a list: for each a build of production 1 with these children.
#[must_use]
pub fn entries(children: impl IntoIterator<Item = Node>) -> Node {
    let entry = Node::build(1, children);
    Node::build(0, [Node::sequence([Node::each(Path::variable(0), entry)])])
}

/// The example's templates. The body has records 4 to 10: the build, the sequence, the for and its
/// path, the build, the place and its path.
#[must_use]
pub fn templates() -> Records {
    template(entries([Node::place(Path::variable(1))]))
}

/// The list of these titles.
pub fn titles<const N: usize>(texts: [&[u8]; N]) -> Records {
    let texts = texts.into_iter().map(Value::text);
    Value::list(texts).records().into()
}

/// The example's value.
#[must_use]
pub fn value() -> Records {
    titles([b"ab", "αβγδ".as_bytes()])
}

/// The example.
#[must_use]
pub fn example() -> Set {
    Set::of(&grammar(), &templates(), &value())
}

/// The example with other records as its grammar.
#[must_use]
pub fn of_grammar(label: &str, grammar: &Records) -> Case {
    Set::of(grammar, &templates(), &value()).case(label)
}

/// The example with other records as its templates.
#[must_use]
pub fn of_templates(label: &str, templates: &Records) -> Case {
    Set::of(&grammar(), templates, &value()).case(label)
}

/// The example with other records as its value.
#[must_use]
pub fn of_value(label: &str, value: &Records) -> Case {
    Set::of(&grammar(), &templates(), value).case(label)
}

/// The example with another record in its grammar.
#[must_use]
pub fn in_grammar(label: &str, place: usize, record: Record) -> Case {
    of_grammar(label, &grammar().with(place, record))
}

/// The example with another record in its templates.
#[must_use]
pub fn in_templates(label: &str, place: usize, record: Record) -> Case {
    of_templates(label, &templates().with(place, record))
}

/// The example with another record in its value.
#[must_use]
pub fn in_value(label: &str, place: usize, record: Record) -> Case {
    of_value(label, &value().with(place, record))
}

/// A build of production 0, of a sequence of nothing: "[]".
#[must_use]
pub fn nothing() -> Node {
    Node::build(0, [Node::sequence([])])
}

/// Template 0 expands itself without an end.
#[must_use]
pub fn endless() -> Records {
    template(Node::expand(0, [Path::variable(0)]))
}

/// A yes/no decides between "[]" and "[<no>]".
#[must_use]
pub fn choice() -> Records {
    let entry = Node::build(1, [Node::literal("no")]);
    let no = Node::build(0, [Node::sequence([entry])]);
    let mut templates = Templates::new();
    templates.text(0);
    let decides = templates.yes_no();
    let body = Node::either(Path::variable(0), nothing(), no);
    templates.template(0, [decides], body);
    templates.records().into()
}

/// Type 1 is a record of two titles, and template 0 places the second.
#[must_use]
pub fn pair() -> Records {
    let mut templates = Templates::new();
    let title = templates.text(0);
    let titles = templates.record([title, title]);
    let second = Node::place(Path::variable(0).field(1));
    templates.template(1, [titles], Node::build(1, [second]));
    templates.records().into()
}

/// Template 0 expands template 1, whose parameter is of the type given. Types 1 and 2 are both the
/// list of type 0.
#[must_use]
pub fn two_templates(argument: u16) -> Records {
    let mut templates = types();
    templates.list(0);
    templates.template(0, [1], Node::expand(1, [Path::variable(0)]));
    templates.template(0, [argument], nothing());
    templates.records().into()
}

/// The value yes or no.
#[must_use]
pub fn yes_no(yes: bool) -> Records {
    Value::YesNo(yes).records().into()
}
