//! Titles with entities: beside plain ones, over the borders of blocks, at the end of the output.

use build::{escaped, Class, Element, Grammar, Node, Path, PlainClass, Templates, Value, PAYLOAD};

use super::lexemes::{lexeme, near_escaped, near_lexeme, FIVE};
use super::Streams;
use crate::escapes;
use crate::random::Random;

/// What a set of this family gets wrong.
#[derive(Clone, Copy, PartialEq, Eq)]
enum Slip {
    Type,
    OtherClass,
    Literal,
    Name,
    NameAndElement,
    Bounds,
    Text,
}

/// Literals are wrong in more ways than one.
const SLIPS: [Slip; 9] = [
    Slip::Type,
    Slip::OtherClass,
    Slip::Literal,
    Slip::Literal,
    Slip::Literal,
    Slip::Name,
    Slip::NameAndElement,
    Slip::Bounds,
    Slip::Text,
];

/// The numbers of the classes that a set is about.
struct Classes {
    plain: u16,
    /// Another plain class with the same lexemes.
    twin: u16,
    /// Two escaped classes of the first one.
    escaped: [u16; 2],
}

/// Texts of one plain class in the positions of that class and of two escaped ones.
pub(super) fn set(random: &mut Random) -> Streams {
    let slip = random.once_in(2).then(|| *random.pick(&SLIPS));
    let all = random.once_in(2);
    let (mut grammar, classes) = grammar(random, all);
    let (_, table) = grammar.plain(classes.plain).expect("a plain class");
    let table = table.clone();
    let text = |random: &mut Random| match all {
        true => escapes::plain(random),
        false => lexeme(random, &table),
    };
    let mut texts: Vec<Vec<u8>> = (0..random.below(5)).map(|_| text(random)).collect();
    if all && random.once_in(2) {
        texts.insert(0, over_a_border(random));
    }
    if slip == Some(Slip::Text) {
        texts.push(near_lexeme(random, &table));
    }
    let literal = match slip {
        Some(Slip::Literal) => near_escaped(random, &table),
        _ => escaped(&text(random)),
    };
    let templates = templates(random, &classes, slip, literal);
    let value = Value::list(texts.into_iter().map(Value::Text));
    slip_grammar(random, &mut grammar, slip);
    Streams::of(&grammar, &templates, &value)
}

/// A text that, as the first of a list, has escaped characters around the border of two blocks.
fn over_a_border(random: &mut Random) -> Vec<u8> {
    // The list's head and the text's own stand before it.
    let border = random.between(1, 3) * PAYLOAD - 16;
    let mut text = vec![b'o'; border - random.below(8)];
    text.extend((0..16).map(|_| *random.pick(b"&<>\"'")));
    text
}

/// Nonterminal 0: a row of nonterminal 1, which is a lexeme of one of the three classes, by itself
/// (productions 1 to 3) or with a keyword behind it (4 to 6). Other classes of both kinds stand
/// before and between.
fn grammar(random: &mut Random, all: bool) -> (Grammar, Classes) {
    let mut grammar = Grammar::new();
    let (most, ranges) = match all {
        true => (65_535, vec![(0, 0x10_FFFF)]),
        false => {
            let most = *random.pick(&[1, 3, 20, 300]);
            (most, [FIVE, &[(0x61, 0x7A), (0x3B1, 0x3C9)]].concat())
        }
    };
    fill(random, &mut grammar, 60);
    let plain = grammar.class(0, most, &ranges);
    fill(random, &mut grammar, 3);
    let first = grammar.escaped(plain);
    fill(random, &mut grammar, 3);
    let twin = grammar.class(0, most, &ranges);
    let second = grammar.escaped(plain);
    let classes = Classes {
        plain,
        twin,
        escaped: [first, second],
    };
    let rows = [
        Element::Repetition(1),
        Element::separated(1, ", "),
        Element::separated(1, "&"),
    ];
    grammar.production(0, [random.pick(&rows).clone()]);
    for behind in [None, Some(";")] {
        for class in [plain, first, second] {
            let keyword = behind.map(Element::keyword);
            grammar.production(1, [Element::Class(class)].into_iter().chain(keyword));
        }
    }
    (grammar, classes)
}

/// Some classes that nothing uses.
fn fill(random: &mut Random, grammar: &mut Grammar, most: usize) {
    for _ in 0..random.below(most + 1) {
        match random.once_in(2) {
            true if !grammar.classes.is_empty() => {
                let plain = *random.pick(&grammar.plain_classes());
                grammar.escaped(plain)
            }
            _ => grammar.class(0, 1, &[]),
        };
    }
}

/// Template 0 of a list of texts: a for or two, and a literal in an escaped position before, between
/// or behind them.
fn templates(
    random: &mut Random,
    classes: &Classes,
    slip: Option<Slip>,
    literal: Vec<u8>,
) -> Templates {
    let mut templates = Templates::new();
    let text = templates.text(match slip {
        Some(Slip::Type) => *random.pick(&classes.escaped),
        Some(Slip::OtherClass) => classes.twin,
        _ => classes.plain,
    });
    let list = templates.list(text);
    let mut items = Vec::new();
    for _ in 0..random.between(1, 2) {
        let production = random.between(1, 6) as u16;
        let body = Node::build(production, [Node::place(Path::variable(1))]);
        items.push(Node::each(Path::variable(0), body));
    }
    if slip == Some(Slip::Literal) || random.once_in(2) {
        let production = *random.pick(&[2, 3, 5, 6]);
        let at = random.below(items.len() + 1);
        items.insert(at, Node::build(production, [Node::Literal(literal)]));
    }
    templates.template(0, [list], Node::build(0, [Node::Sequence(items)]));
    templates
}

/// Lets an escaped class name another class than it may, or turns a plain one upside down.
fn slip_grammar(random: &mut Random, grammar: &mut Grammar, slip: Option<Slip>) {
    let total = grammar.classes.len();
    let is_escaped = |&number: &usize| matches!(grammar.classes[number], Class::Escaped(_));
    let of_both: (Vec<usize>, Vec<usize>) = (0..total).partition(is_escaped);
    let (escaped, plain) = of_both;
    let number = *random.pick(&escaped);
    let named = match random.below(5) {
        0 => number,
        1 => *random.pick(&escaped),
        2 => *random.pick(&plain),
        3 => total + random.below(2),
        _ => random.between(number, total - 1),
    };
    match slip {
        Some(Slip::Name) => grammar.classes[number] = Class::Escaped(named as u16),
        Some(Slip::NameAndElement) => {
            grammar.classes[number] = Class::Escaped(named as u16);
            let element = Element::Class(total as u16);
            grammar.productions[0].elements.push(element);
        }
        Some(Slip::Bounds) => {
            grammar.classes[*random.pick(&plain)] = Class::Plain(PlainClass {
                least: 2,
                most: 1,
                ranges: Vec::new(),
            });
        }
        _ => {}
    }
}
