//! Characters at the borders of what XML 1.0 admits: in titles and literals, of plain and of escaped
//! classes, by themselves, in the midst of a text and at the borders of blocks; and in keywords and
//! separators, where they may stand.

use build::borders::{ADMITTED, OTHERS};
use build::{escaped, Element, Grammar, Node, Path, Templates, Value, PAYLOAD};

use super::Streams;
use crate::admission::Text;
use crate::random::Random;

/// What stands between the characters at the borders. A text comes up to a border of blocks by the
/// first.
const LETTERS: [char; 6] = ['o', '&', '<', 'α', '語', '😀'];

/// The bytes of payload before the first title of a list, and before a literal of the first item of
/// template 0, which has two types and one parameter.
const BEFORE_TITLES: usize = 2 * 8;
const BEFORE_LITERALS: usize = 8 * 8;

/// Texts of one class, in its positions and in those of its escaped form, most of the times with one
/// character that isn't admitted.
pub(super) fn set(random: &mut Random) -> Streams {
    let other = *random.pick(&OTHERS);
    let kinds = [Text::Title, Text::Literal, Text::EscapedLiteral];
    let slip = (!random.once_in(4)).then(|| *random.pick(&kinds));
    let characters = match random.once_in(8) {
        true => Vec::new(),
        false => characters(random),
    };
    let odd = |kind| Some(other).filter(|_| slip == Some(kind));
    let mut titles: Vec<String> = (0..random.below(4))
        .map(|_| text(random, &characters, None))
        .collect();
    titles.insert(0, text(random, &characters, odd(Text::Title)));
    let mut literals = [(1, Text::Literal), (2, Text::EscapedLiteral)]
        .map(|(production, kind)| (production, text(random, &characters, odd(kind))));
    if random.once_in(2) {
        literals.reverse();
    }
    if characters.is_empty() || random.once_in(2) {
        let place = random.below(titles.len());
        titles.swap(0, place);
    } else {
        titles[0].insert_str(0, &up_to_a_border(random, BEFORE_TITLES));
        let (_, first) = &mut literals[0];
        first.insert_str(0, &up_to_a_border(random, BEFORE_LITERALS));
    }
    let ranges = ranges(random, &characters, other);
    let grammar = grammar(random, &ranges);
    let value = Value::list(titles.into_iter().map(Value::text));
    Streams::of(&grammar, &templates(random, literals), &value)
}

/// Some characters at borders, with letters or without; one letter is always there.
fn characters(random: &mut Random) -> Vec<char> {
    let borders = (0..random.between(1, 8)).map(|_| *random.pick(&ADMITTED));
    let borders: Vec<char> = borders.collect();
    let letters = *random.pick(&[1, 1, LETTERS.len()]);
    [&borders[..], &LETTERS[..letters]].concat()
}

/// A short text of these characters, and of this one among them.
fn text(random: &mut Random, characters: &[char], odd: Option<char>) -> String {
    let count = match characters {
        [] => 0,
        _ => *random.pick(&[0, 1, 1, 3, 8, 16]),
    };
    let mut text: Vec<char> = (0..count).map(|_| *random.pick(characters)).collect();
    if let Some(odd) = odd {
        let at = *random.pick(&[0, 0, text.len(), text.len() / 2]);
        text.insert(at, odd);
    }
    text.into_iter().collect()
}

/// So many letters that what comes behind them begins at a border of two blocks, or up to four bytes
/// before it.
fn up_to_a_border(random: &mut Random, before: usize) -> String {
    let border = random.between(1, 2) * PAYLOAD - before;
    String::from(LETTERS[0]).repeat(border - random.below(5))
}

/// Ranges that hold these characters and the other one: all, each with its neighbours, or each by
/// itself. Where there are no characters, some hold none that is admitted.
fn ranges(random: &mut Random, characters: &[char], other: char) -> Vec<(u32, u32)> {
    let around = match random.below(3) {
        0 => return vec![(0, 0x10_FFFF)],
        1 if !characters.is_empty() => 1,
        _ => 0,
    };
    let held = characters
        .iter()
        .chain([&other])
        .map(|&held| u32::from(held));
    held.map(|code| {
        let highest = (code + around).min(0x10_FFFF);
        (code.saturating_sub(around), highest)
    })
    .collect()
}

/// Nonterminal 0: a keyword and a row of nonterminal 1 with a separator, both of which may have any
/// character; nonterminal 1: a lexeme of the plain class (production 1) or of its escaped form (2).
fn grammar(random: &mut Random, ranges: &[(u32, u32)]) -> Grammar {
    let mut grammar = Grammar::new();
    let plain = grammar.class(0, 65_535, ranges);
    let escaped = grammar.escaped(plain);
    let any = [&OTHERS[..], &ADMITTED, &LETTERS].concat();
    let [keyword, separator] = [0; 2].map(|_| {
        let count = random.below(4);
        let text: String = (0..count).map(|_| *random.pick(&any)).collect();
        text
    });
    let row = Element::separated(1, separator);
    grammar.production(0, [Element::keyword(keyword), row]);
    grammar.production(1, [Element::Class(plain)]);
    grammar.production(1, [Element::Class(escaped)]);
    grammar
}

/// Template 0 of a list of texts: two literals, each for a production, then the texts in one of the
/// positions or in both.
fn templates(random: &mut Random, literals: [(u16, String); 2]) -> Templates {
    let mut templates = Templates::new();
    let text = templates.text(0);
    let list = templates.list(text);
    let mut items = Vec::new();
    for (production, literal) in literals {
        let literal = match production {
            1 => literal.into_bytes(),
            _ => escaped(literal.as_bytes()),
        };
        items.push(Node::build(production, [Node::Literal(literal)]));
    }
    for _ in 0..random.between(1, 2) {
        let production = random.between(1, 2) as u16;
        let entry = Node::build(production, [Node::place(Path::variable(1))]);
        items.push(Node::each(Path::variable(0), entry));
    }
    templates.template(0, [list], Node::build(0, [Node::Sequence(items)]));
    templates
}
