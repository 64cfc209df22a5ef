//! Cases of repetitions with a separator.

use crate::case::{Case, Lent, Set, PLENTY};
use crate::example::{template, templates, titles, types, value};
use crate::records::{path, Records};
use build::{record, Element, Grammar, Node, Path, VALUE};

/// All of them.
#[must_use]
pub fn all() -> Vec<Case> {
    [
        layout(),
        names_and_typing(),
        texts(),
        rows(),
        fuels(),
        rooms(),
        levels(),
    ]
    .concat()
}

/// The example's grammar with a separator between the entries, and three productions more: an entry
/// of nothing, nonterminal 0 as itself, and an entry that is a list. The repetition is record 6, and
/// its separator begins at 7.
fn grammar(separator: &[u8]) -> Records {
    let keyword = |text: &str| Element::keyword(text);
    let mut grammar = Grammar::new();
    grammar.class(1, 4, &[(0x61, 0x7A), (0x370, 0x3FF)]);
    let row = Element::separated(1, separator);
    grammar.production(0, [keyword("["), row, keyword("]")]);
    grammar.production(1, [keyword("<"), Element::Class(0), keyword(">")]);
    grammar.production(1, []);
    grammar.production(0, [Element::Nonterminal(0)]);
    grammar.production(1, [Element::Nonterminal(0)]);
    grammar.records().into()
}

/// The example with commas: "[<ab>, <αβγδ>]".
fn commas() -> Set {
    Set::of(&grammar(b", "), &templates(), &value())
}

/// The example with this separator.
fn of(label: &str, separator: &[u8]) -> Case {
    Set::of(&grammar(separator), &templates(), &value()).case(label)
}

fn layout() -> Vec<Case> {
    let changed = |label: &str, place, record| {
        let grammar = grammar(b", ").with(place, record);
        Set::of(&grammar, &templates(), &value()).case(label)
    };
    vec![
        changed("3 separator with d", 6, record(4, 4, 1, 2, 1)),
        changed("3 separator under form 5", 6, record(4, 5, 1, 2, 0)),
        changed("3 separator under form 3", 6, record(4, 3, 1, 2, 0)),
        changed("3 separator of a byte less", 6, record(4, 4, 1, 1, 0)),
        changed("0 separator of a zero more", 6, record(4, 4, 1, 3, 0)),
        changed("3 separator of a unit more", 6, record(4, 4, 1, 9, 0)),
        changed("3 separator with a byte after it", 7, *b", \0\0\0\0\0,"),
        changed("3 separator past the end", 6, record(4, 4, 1, 65_535, 0)),
    ]
}

fn names_and_typing() -> Vec<Case> {
    let named = grammar(b", ").with(6, record(4, 4, 2, 2, 0));
    // The first item is of nonterminal 0.
    let item = templates().with(8, record(5, 0, 0, 3, 1));
    let no_sequence = template(Node::build(0, [Node::build(1, [Node::literal("ab")])]));
    let place = templates().with(10, path(0));
    let of = |label, templates: &Records| Set::of(&grammar(b", "), templates, &value()).case(label);
    vec![
        Set::of(&named, &templates(), &value()).case("5 separated nonterminal 2"),
        of("7 separated item of nonterminal 0", &item),
        of("7 build where items are separated", &no_sequence),
        of("7 separated place on variable 0", &place),
    ]
}

fn texts() -> Vec<Case> {
    let lent = Lent {
        room: 1_000,
        ..PLENTY
    };
    let long: Vec<u8> = (0..600).map(|i| (7 * i + 3) as u8).collect();
    vec![
        commas().case("0 commas"),
        commas()
            .value(titles([]).packed(VALUE))
            .case("0 commas, empty list"),
        commas()
            .value(titles([b"ab"]).packed(VALUE))
            .case("0 commas, one title"),
        of("0 empty separator", b""),
        of("0 separator of eight bytes", b"; then: "),
        of("0 separator of nine bytes", b"; and so "),
        of("0 separator of no UTF-8", &[0xC0, 0x80, 0, 0xFF]),
        Set::of(&grammar(&long), &templates(), &value()).lent("0 separator over two blocks", lent),
    ]
}

/// Titles from a for, an entry of nothing, titles from a for again, and an entry more.
fn several() -> Records {
    let titles = || {
        let entry = Node::build(1, [Node::place(Path::variable(1))]);
        Node::each(Path::variable(0), entry)
    };
    let last = Node::build(1, [Node::literal("z")]);
    let items = [titles(), titles(), Node::build(2, []), titles(), last];
    template(Node::build(0, [Node::sequence(items)]))
}

/// Two expands that write nothing, and a list of two entries between them.
fn nested() -> Records {
    let mut templates = types();
    let entry = || Node::build(1, [Node::literal("i")]);
    let inner = Node::build(0, [Node::sequence([entry(), entry()])]);
    let nothing = || Node::expand(1, []);
    let outer = Node::sequence([nothing(), Node::build(4, [inner]), nothing()]);
    templates.template(0, [1], Node::build(0, [outer]));
    templates.template(1, [], Node::build(2, []));
    templates.records().into()
}

fn rows() -> Vec<Case> {
    let of = |label, templates: &Records, value: &Records| {
        Set::of(&grammar(b", "), templates, value).case(label)
    };
    vec![
        of("0 several fors", &several(), &value()),
        of("0 several fors, empty list", &several(), &titles([])),
        of(
            "0 list in a list, and expands that write nothing",
            &nested(),
            &value(),
        ),
    ]
}

/// The fifth step is the first title's, and the second title comes behind a separator.
fn fuels() -> Vec<Case> {
    let of = |label, fuel| commas().lent(label, Lent { fuel, ..PLENTY });
    let several = |label, fuel| {
        Set::of(&grammar(b", "), &several(), &value()).lent(label, Lent { fuel, ..PLENTY })
    };
    vec![
        of("10 commas, fuel 4", 4),
        of("10 fuel behind a separator", 5),
        of("10 commas, fuel 6", 6),
        several("10 fuel at a for, before a separator", 7),
        several("10 fuel behind a second for's separator", 8),
        several("10 fuel behind the separator of nothing", 12),
    ]
}

/// The first title ends at byte 5, the separator behind it at 7, the text at 18.
fn rooms() -> Vec<Case> {
    let of = |label, room| commas().lent(label, Lent { room, ..PLENTY });
    let neither = Lent {
        fuel: 5,
        room: 6,
        ..PLENTY
    };
    let none = Lent { room: 16, ..PLENTY };
    vec![
        of("12 room that ends before a separator", 5),
        of("12 room that ends in a separator", 6),
        of("12 room that ends behind a separator", 7),
        of("12 commas, room for 17", 17),
        of("0 commas, room for 18", 18),
        commas().lent("12 neither fuel nor room behind a title", neither),
        Set::of(&grammar(b""), &templates(), &value()).lent("0 empty separator, room for 16", none),
    ]
}

/// An entry of nothing at depth 200, and behind it titles of a for at depth 201.
fn deep() -> Records {
    let mut templates = types();
    let body = Node::expand(1, [Path::variable(0)]);
    let body = (0..196).fold(body, |below, _| Node::build(3, [below]));
    templates.template(0, [1], body);
    let titles = Node::each(Path::variable(0), Node::build(2, []));
    let items = Node::sequence([Node::build(2, []), titles]);
    templates.template(0, [1], Node::build(0, [items]));
    templates.records().into()
}

fn levels() -> Vec<Case> {
    let set = Set::of(&grammar(b", "), &deep(), &value());
    let of = |label, fuel, room| {
        set.clone().lent(
            label,
            Lent {
                fuel,
                room,
                ..PLENTY
            },
        )
    };
    vec![
        of("11 depth 201 behind a separator", 1_000, 64),
        of("10 depth 201 behind a separator, no fuel left", 201, 64),
        of("12 depth 201 without room for a separator", 1_000, 2),
    ]
}
