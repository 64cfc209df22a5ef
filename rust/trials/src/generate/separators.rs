//! Rows of items with a separator between them.

use build::{Element, Grammar, Node, Path, Templates, Value};

use super::grammars::any_bytes;
use super::Streams;
use crate::random::Random;

/// A set of such rows: from fors in a row over lists that may be empty,
/// from ifs, expands and rows in rows; some write nothing, and some stand near depth 201.
pub(super) fn set(random: &mut Random) -> Streams {
    let mut templates = Templates::new();
    let text = templates.text(0);
    let yes_no = templates.yes_no();
    let list = templates.list(text);
    let whole = templates.record([list, list, list, yes_no, text]);
    let levels = *random.pick(&[0, 0, 0, 194, 195, 196, 196, 196]);
    let row = Node::expand(1, [Path::variable(0)]);
    let body = (0..levels).fold(row, |body, _| Node::build(4, [body]));
    templates.template(0, [whole], body);
    let mut items = row_of_items(random, &[0, 2, 4, 8]);
    if levels > 0 || random.once_in(4) {
        // Nothing below it, so that a for's items may come behind it at depth 201.
        items.insert(0, Node::build(2, []));
    } else if random.once_in(2) {
        let place = random.below(items.len() + 1);
        items.insert(place, Node::expand(2, [Path::variable(0)]));
    }
    templates.template(0, [whole], Node::build(0, [Node::Sequence(items)]));
    let pair = [0; 2].map(|_| Node::Sequence(row_of_items(random, &[0, 1, 3])));
    templates.template(1, [whole], Node::build(5, pair));
    templates.template(1, [text], Node::build(1, [Node::place(Path::variable(0))]));
    let texts = ["", "a", "zz", "xyz"];
    let lists = [0; 3].map(|_| {
        let count = *random.pick(&[0, 0, 1, 2, 5]);
        Value::list((0..count).map(|_| Value::text(*random.pick(&texts))))
    });
    let rest = [Value::YesNo(random.once_in(2)), Value::text("w")];
    let value = Value::record(lists.into_iter().chain(rest));
    Streams::of(&rows(random), &templates, &value)
}

/// Nonterminal 0: `[` 1* `]`, or `(` 0 `)`; nonterminal 1: a word, nothing, a 0, or two rows of 1
/// side by side. All rows have separators, which start at any record of a block.
fn rows(random: &mut Random) -> Grammar {
    let mut grammar = Grammar::new();
    grammar.class(0, 3, &[(0x61, 0x7A)]);
    for _ in 0..random.below(64) {
        grammar.class(0, 1, &[]);
    }
    let mut row = || {
        let length = *random.pick(&[0, 1, 1, 2, 2, 3, 7, 8, 9, 16, 17, 496, 504, 505, 1_100]);
        Element::separated(1, any_bytes(random, length))
    };
    let keyword = |text: &str| Element::keyword(text);
    grammar.production(0, [keyword("["), row(), keyword("]")]);
    grammar.production(1, [Element::Class(0)]);
    grammar.production(1, []);
    grammar.production(1, [Element::Nonterminal(0)]);
    grammar.production(0, [keyword("("), Element::Nonterminal(0), keyword(")")]);
    grammar.production(1, [row(), row()]);
    grammar
}

/// Some items of nonterminal 1, on the record that is the one variable.
fn row_of_items(random: &mut Random, counts: &[usize]) -> Vec<Node> {
    let whole = Path::variable(0);
    let word = |path: &Path| Node::build(1, [Node::place(path.clone())]);
    let nothing = || Node::build(2, []);
    let count = *random.pick(counts);
    let mut item = || {
        let list = whole.clone().field(random.below(3) as u8);
        let (answer, text) = (whole.clone().field(3), whole.clone().field(4));
        let one = Path::variable(1);
        match random.below(10) {
            0..=2 => Node::each(list, word(&one)),
            3 => Node::each(list, nothing()),
            4 => Node::each(list, Node::expand(3, [one])),
            5 => Node::each(list, Node::either(answer, word(&one), nothing())),
            6 => nothing(),
            7 => Node::either(answer, Node::expand(3, [text]), nothing()),
            8 => Node::build(
                3,
                [Node::build(0, [Node::sequence([word(&text), nothing()])])],
            ),
            _ => word(&text),
        }
    };
    (0..count).map(|_| item()).collect()
}
