//! Families of sets that stand at a limit: just under it, at it and past it.

use build::{
    blocks, record, Element, Grammar, Node, Path, PlainClass, Record, Templates, Type, Value,
    TEMPLATES, VALUE,
};

use super::grammars::draw_class;
use super::lexemes::{lexeme, near_lexeme};
use super::{admission, escapes, productions, separators, variants, Streams};
use crate::random::Random;
use crate::uploads;

/// A set of one of the families.
pub(super) fn set(random: &mut Random) -> Streams {
    match random.below(50) {
        0 => deep_body(random),
        1 => deep_value(random),
        2 => thousands_deep(random),
        3 => parameters(random),
        4 => nested_loops(random),
        5 => wide_sequence(random),
        6 => long_list(random),
        7 => endless_expand(random),
        8 | 9 => tree(random),
        10 => many_classes(random),
        11 => many_fields(random),
        12 => most_blocks(random),
        13 => long_texts(random),
        14 => tails(random),
        15..=17 => words(random),
        18..=20 => separators::set(random),
        21 => chances(random),
        22..=28 => escapes::set(random),
        29..=37 => admission::set(random),
        38..=41 => productions::set(random),
        _ => variants::set(random),
    }
}

/// Nonterminal 0: `(` 0 `)`, or a word, or `{` 0* `}`; class 0 of Latin and Greek letters.
fn brackets() -> Grammar {
    let mut grammar = Grammar::new();
    let word = grammar.class(1, 4, &[(0x61, 0x7A), (0x370, 0x3FF)]);
    let keyword = |text: &str| Element::keyword(text);
    grammar.production(0, [keyword("("), Element::Nonterminal(0), keyword(")")]);
    grammar.production(0, [Element::Class(word)]);
    grammar.production(0, [keyword("{"), Element::Repetition(0), keyword("}")]);
    grammar
}

fn leaf() -> Node {
    Node::build(1, [Node::literal("λ")])
}

/// A body of builds, ifs or loops around a literal, near 200 levels deep.
fn deep_body(random: &mut Random) -> Streams {
    let levels = *random.pick(&[2, 50, 196, 197, 198, 199, 200, 203, 300]);
    let mut templates = Templates::new();
    let yes_no = templates.yes_no();
    let mut body = leaf();
    for _ in 0..levels {
        body = match random.below(8) {
            0 => Node::either(Path::variable(0), body, leaf()),
            1 => Node::either(Path::variable(0), leaf(), body),
            2 => Node::build(2, [Node::sequence([leaf(), body])]),
            _ => Node::build(0, [body]),
        };
    }
    templates.template(0, [yes_no], body);
    Streams::of(&brackets(), &templates, &Value::YesNo(random.once_in(2)))
}

/// A list in a list and so on, near 200 levels deep.
fn deep_value(random: &mut Random) -> Streams {
    let levels = *random.pick(&[1, 2, 100, 198, 199, 200, 201, 202, 300]);
    let mut value = Value::list([]);
    for _ in 1..levels {
        value = Value::list([value]);
    }
    if random.once_in(2) {
        value = Value::list([value, Value::list([])]);
    }
    let mut templates = Templates::new();
    templates.list(0);
    templates.template(0, [0], leaf());
    Streams::of(&brackets(), &templates, &value)
}

/// Layout is judged before depth: trees as deep as a stream is long.
fn thousands_deep(random: &mut Random) -> Streams {
    let levels = random.between(1000, 8000) as u16;
    let mut streams = deep_value(random);
    let chain = |kind: u8, a: u8| -> Vec<Record> {
        (0..levels)
            .map(|level| record(kind, a, 0, levels - level, u16::from(level + 1 < levels)))
            .collect()
    };
    if random.once_in(2) {
        streams.value = blocks(VALUE, &chain(3, 0));
    } else {
        let mut records = vec![
            record(1, 2, 0, 0, 0),
            record(3, 1, 0, levels + 2, 0),
            record(4, 0, 0, 0, 0),
        ];
        records.extend(chain(5, 0));
        streams.templates = blocks(TEMPLATES, &records);
    }
    streams
}

/// A template with about eight parameters, all of them used; their types are two of the same class,
/// which at times are taken for each other.
fn parameters(random: &mut Random) -> Streams {
    let count = random.between(6, 10);
    let mut templates = Templates::new();
    let texts = [templates.text(0), templates.text(0)];
    let whole = templates.record(texts);
    let mistaken = random.below(2 * count);
    let argument = |number: usize| {
        let right = number != mistaken;
        Path::variable(0).field(((number + usize::from(right)) % 2) as u8)
    };
    let body = Node::build(0, [Node::expand(1, (0..count).map(argument))]);
    templates.template(0, [whole], body);
    let used = |number: usize| Node::build(1, [Node::place(Path::variable(number as u8))]);
    let body = Node::build(2, [Node::sequence((0..count).map(used))]);
    let kinds = (0..count).map(|number| texts[(number + 1) % 2]);
    templates.template(0, kinds, body);
    let value = Value::record([Value::text("ab"), Value::text("γδ")]);
    Streams::of(&brackets(), &templates, &value)
}

/// About sixteen loops around a node, over lists of lists; at times a for right inside a for.
fn nested_loops(random: &mut Random) -> Streams {
    let loops = random.between(13, 18);
    let mut body = leaf();
    for number in (0..loops).rev() {
        let each = Node::each(Path::variable(number as u8), body);
        body = match random.once_in(60) {
            true => each,
            false => Node::build(2, [Node::sequence([each])]),
        };
    }
    let mut templates = Templates::new();
    templates.list(0);
    templates.template(0, [0], body);
    let mut value = Value::list([]);
    for level in 0..random.between(1, 18) {
        value = match level % 5 {
            0 => Value::list([value.clone(), value]),
            _ => Value::list([value]),
        };
    }
    Streams::of(&brackets(), &templates, &value)
}

/// Lexemes of one class as literals and as texts, at times with one that just misses it, or texts of
/// another class that has the same characters.
fn words(random: &mut Random) -> Streams {
    let mut grammar = Grammar::new();
    draw_class(random, &mut grammar);
    grammar.add(grammar.classes[0].clone());
    let class = grammar.plain(0).expect("a class").1.clone();
    grammar.production(0, [Element::Repetition(1)]);
    grammar.production(1, [Element::Class(0), Element::keyword(" ")]);
    let mut templates = Templates::new();
    let text = templates.text(u16::from(random.once_in(8)));
    let list = templates.list(text);
    let literals = row_of_words(random, &class, 4).into_iter();
    let mut items: Vec<Node> = literals
        .map(|literal| Node::build(1, [Node::Literal(literal)]))
        .collect();
    let placed = Node::build(1, [Node::place(Path::variable(1))]);
    items.push(Node::each(Path::variable(0), placed));
    templates.template(0, [list], Node::build(0, [Node::Sequence(items)]));
    let texts = row_of_words(random, &class, 2).into_iter();
    let value = Value::list(texts.map(Value::Text));
    Streams::of(&grammar, &templates, &value)
}

/// Some lexemes of a class, and once in so many times one behind them that just misses it.
fn row_of_words(random: &mut Random, class: &PlainClass, times: usize) -> Vec<Vec<u8>> {
    let count = random.below(8);
    let mut words: Vec<Vec<u8>> = (0..count).map(|_| lexeme(random, class)).collect();
    if random.once_in(times) {
        words.push(near_lexeme(random, class));
    }
    words
}

/// Thousands of items in one sequence.
fn wide_sequence(random: &mut Random) -> Streams {
    let count = random.between(100, 2500);
    let mut templates = Templates::new();
    let text = templates.text(0);
    let item = |number: usize| match number % 3 {
        0 => Node::build(1, [Node::place(Path::variable(0))]),
        1 => leaf(),
        _ => Node::build(2, [Node::sequence([])]),
    };
    let body = Node::build(2, [Node::sequence((0..count).map(item))]);
    templates.template(0, [text], body);
    Streams::of(&brackets(), &templates, &Value::text("ψ"))
}

/// Thousands of short texts in one list.
fn long_list(random: &mut Random) -> Streams {
    let count = random.between(100, 4000);
    let mut templates = Templates::new();
    let text = templates.text(0);
    let list = templates.list(text);
    let each = Node::each(
        Path::variable(0),
        Node::build(1, [Node::place(Path::variable(1))]),
    );
    let both = Node::sequence([each.clone(), each]);
    templates.template(0, [list], Node::build(2, [both]));
    let words = ["a", "β", "zz", "ωωωω"];
    let item = |_| Value::text(*random.pick(&words));
    let value = Value::list((0..count).map(item));
    Streams::of(&brackets(), &templates, &value)
}

/// Templates that expand themselves or one another for ever: M11 and M12 among them.
fn endless_expand(random: &mut Random) -> Streams {
    let mut templates = Templates::new();
    let list = templates.list(0);
    let count = random.between(1, 3);
    for number in 0..count {
        let next = Node::expand(((number + 1) % count) as u16, [Path::variable(0)]);
        let body = match random.below(3) {
            0 => Node::build(0, [next]),
            1 => Node::build(2, [Node::sequence([leaf(), next, leaf()])]),
            _ => next,
        };
        templates.template(0, [list], body);
    }
    Streams::of(&brackets(), &templates, &Value::list([]))
}

/// A template that expands itself on each branch of a tree: four levels of depth for each level of
/// the value, so that about fifty levels meet the limit of the run.
fn tree(random: &mut Random) -> Streams {
    let mut templates = Templates::new();
    let list = templates.list(0);
    let again = Node::expand(0, [Path::variable(1)]);
    let each = Node::each(Path::variable(0), again);
    templates.template(0, [list], Node::build(2, [Node::sequence([each])]));
    let levels = *random.pick(&[1, 2, 5, 48, 49, 50, 51, 52, 60]);
    let mut value = Value::list([]);
    for _ in 1..levels {
        let twigs = (0..random.below(3)).map(|_| Value::list([]));
        let mut items: Vec<Value> = twigs.collect();
        let place = random.below(items.len() + 1);
        items.insert(place, value);
        value = Value::list(items);
    }
    Streams::of(&brackets(), &templates, &value)
}

/// About 256 classes, the last of them used.
fn many_classes(random: &mut Random) -> Streams {
    let count = *random.pick(&[200, 255, 256, 257, 258]);
    let mut grammar = Grammar::new();
    for number in 0..count {
        let ranges = vec![(0x3B1, 0x3C9); random.below(4)];
        let first = if number + 1 == count { 0x61 } else { 0x3B1 };
        grammar.class(0, 9, &[&ranges[..], &[(first, first + 9)]].concat());
    }
    let last = (count - 1) as u16;
    grammar.production(7, [Element::Class(last)]);
    let mut templates = Templates::new();
    let text = templates.text(last);
    let body = Node::build(0, [Node::place(Path::variable(0))]);
    templates.template(7, [text], body);
    let text = *random.pick(&["abc", "", "αβγ"]);
    Streams::of(&grammar, &templates, &Value::text(text))
}

/// Records of about 256 fields in one another, read at late fields.
fn many_fields(random: &mut Random) -> Streams {
    let count = *random.pick(&[1, 3, 200, 255, 256, 257, 300]);
    let levels = random.between(1, 6);
    let mut templates = Templates::new();
    let text = templates.text(0);
    let mut kind = text;
    let mut value = Value::text("αω");
    let mut path = Path::variable(0);
    for _ in 0..levels {
        let deep = random.below(2) * (count - 1);
        let mut fields = vec![text; count];
        let mut values = vec![Value::text("a"); count];
        fields[deep] = kind;
        values[deep] = value;
        kind = templates.add(Type::Record(fields));
        value = Value::Record(values);
        path.fields.insert(0, deep as u8);
    }
    templates.template(0, [kind], Node::build(1, [Node::place(path)]));
    Streams::of(&brackets(), &templates, &value)
}

/// Keywords, literals and texts over several blocks.
fn long_texts(random: &mut Random) -> Streams {
    let mut length = || *random.pick(&[0, 1, 7, 8, 9, 495, 496, 504, 505, 1200, 5000, 20_000]);
    let mut grammar = Grammar::new();
    grammar.class(
        0,
        60_000,
        &[(0x20, 0x7E), (0x370, 0x3FF), (0x1F600, 0x1F64F)],
    );
    let keyword = Element::keyword("k".repeat(length()));
    grammar.production(0, [keyword, Element::Class(0), Element::Class(0)]);
    let mut templates = Templates::new();
    let text = templates.text(0);
    let literal = Node::literal("ίxω".repeat(length() / 5));
    let body = Node::build(0, [literal, Node::place(Path::variable(0))]);
    templates.template(0, [text], body);
    let value = Value::text("aω😀".repeat(length() / 7));
    Streams::of(&grammar, &templates, &value)
}

/// A text over several blocks, of which the first have the check 2166136261: letters make it so,
/// and the text is finished, with checks of the old kind too.
fn chances(random: &mut Random) -> Streams {
    let mut grammar = Grammar::new();
    let class = grammar.class(0, 60_000, &[(0x61, 0x7A)]);
    grammar.production(0, [Element::Class(class)]);
    let mut templates = Templates::new();
    let text = templates.text(class);
    templates.template(0, [text], Node::build(0, [Node::place(Path::variable(0))]));
    let letters = random.between(1, 5) * 504 - 8;
    let value = Value::text("o".repeat(letters));
    let mut streams = Streams::of(&grammar, &templates, &value);
    uploads::chances(random, &mut streams.value);
    streams
}

/// Streams that end at the end of a block, or with a whole block of zeros.
fn tails(random: &mut Random) -> Streams {
    let mut streams = deep_value(random);
    let filled = random.between(1, 3) * 63 - 3 + random.below(4);
    let items = vec![record(3, 0, 0, 1, 0); filled - 1];
    let mut records = vec![record(3, 0, 0, filled as u16, items.len() as u16)];
    records.extend(items);
    let zeros = *random.pick(&[0, 0, 1, 61, 62, 63, 64]);
    records.extend(vec![[0; 8]; zeros]);
    streams.value = blocks(VALUE, &records);
    streams
}

/// A value of 128 blocks or one more.
fn most_blocks(random: &mut Random) -> Streams {
    let mut streams = long_list(random);
    let records = 128 * 63 - 1 + random.below(3);
    let units = (records - 1) / 2;
    let mut stream = vec![record(3, 0, 0, (2 * units + 1) as u16, units as u16)];
    for _ in 0..units {
        stream.push(record(1, 0, 2, 2, 0));
        stream.push(*b"\xCE\xB1\0\0\0\0\0\0");
    }
    streams.value = blocks(VALUE, &stream);
    streams
}
