//! More productions than a byte can number, of one nonterminal or of many.

use build::{Element, Grammar, Node, Path, Production, Templates, Value};

use super::Streams;
use crate::random::Random;

/// The nonterminals of the page and of what many pieces end with; pieces have lower ones.
const PAGE: u16 = 60_001;
const END: u16 = 60_000;

/// The records of a stream of 128 blocks.
const FULL: usize = 128 * 63;

/// The records of a page, at most.
const PAGE_RECORDS: usize = 32;

/// A page of early and late pieces, some of which a machine that cuts numbers takes for each other; at
/// times with a piece that isn't there, or one of another nonterminal, or an element that names nothing.
pub(super) fn set(random: &mut Random) -> Streams {
    let shape = random.below(5);
    let count = count(random, (FULL - PAGE_RECORDS) / records_of(shape));
    let mut grammar = pieces(random, shape, count);
    let [end, page] = places(random, count);
    grammar.productions[end] = production(END, [Element::keyword(".")]);
    grammar.productions[page] = production(PAGE, []);
    let mut built = some_pieces(random, &grammar);
    let asked: Vec<Element> = built
        .iter()
        .map(|&number| Element::Nonterminal(grammar.productions[number].nonterminal))
        .collect();
    grammar.productions[page].elements = asked;
    slip(random, &mut grammar, &mut built);
    let templates = templates(random, &grammar, [end, page], &built);
    if random.once_in(8) {
        fill(random, &mut grammar);
    }
    Streams::of(&grammar, &templates, &Value::text("abc"))
}

fn production(nonterminal: u16, elements: impl IntoIterator<Item = Element>) -> Production {
    Production {
        nonterminal,
        elements: elements.into_iter().collect(),
    }
}

/// So many productions: around what one or two bytes can number, or as many as a stream holds.
fn count(random: &mut Random, most: usize) -> usize {
    let count = match random.below(8) {
        0..=3 => *random.pick(&[254, 255, 256, 257, 258, 300, 511, 512, 513, 700]),
        4 => 256 * random.between(1, 9) - 1 + random.below(4),
        5 => random.between(3, 300),
        6 => most,
        _ => random.between(700, most),
    };
    count.min(most)
}

/// The records of the largest piece of a shape.
fn records_of(shape: usize) -> usize {
    [1, 3, 4, 5, 5][shape]
}

/// So many pieces of a shape, or of all shapes.
fn pieces(random: &mut Random, shape: usize, count: usize) -> Grammar {
    let mut grammar = Grammar::new();
    let word = grammar.class(0, 9, &[(0x61, 0x7A)]);
    let nonterminals = *random.pick(&[1, 2, 7, 256, 300, count, count]);
    let in_turn = random.once_in(2);
    for number in 0..count {
        let nonterminal = match in_turn {
            true => number % nonterminals,
            false => random.below(nonterminals),
        };
        let name = Element::keyword(format!("<{number}>"));
        let elements = match shape.min(4) {
            4 if number % 3 == 0 => vec![],
            0 => vec![],
            1 => vec![name],
            2 => vec![name, Element::Class(word)],
            _ => vec![name, Element::Nonterminal(END), Element::Repetition(END)],
        };
        grammar.production(nonterminal as u16, elements);
    }
    grammar
}

/// Where the end and the page stand: first, last or anywhere.
fn places(random: &mut Random, count: usize) -> [usize; 2] {
    let mut place = || match random.below(4) {
        0 => 0,
        1 => count - 1,
        _ => random.below(count),
    };
    let (end, page) = (place(), place());
    match end == page {
        true => [end, (end + 1) % count],
        false => [end, page],
    }
}

/// Some pieces by their numbers: those at a border of bytes, and those that have one byte in common.
fn some_pieces(random: &mut Random, grammar: &Grammar) -> Vec<usize> {
    let count = grammar.productions.len();
    let any = random.below(count);
    let exchanged = usize::from((any as u16).swap_bytes());
    let others = [any, any % 256, any + 256, any % 512, exchanged];
    let borders = [0, 1, 255, 256, 257, 511, 512, 513, count / 2, count - 1];
    let mut numbers = [&others[..], &borders].concat();
    let is_piece = |&number: &usize| {
        let production = grammar.productions.get(number);
        production.is_some_and(|production| production.nonterminal < END)
    };
    numbers.retain(is_piece);
    (0..random.between(1, 8))
        .filter(|_| !numbers.is_empty())
        .map(|_| *random.pick(&numbers))
        .collect()
}

/// Once in a while lets one of the built pieces be none or another one, or an element name nothing.
fn slip(random: &mut Random, grammar: &mut Grammar, built: &mut [usize]) {
    let count = grammar.productions.len();
    if built.is_empty() {
        return;
    }
    let one = random.below(built.len());
    match random.below(16) {
        0 | 1 => {
            let beyond = [count, count, count + 1, count + 255, count + 256, 65_535];
            built[one] = *random.pick(&beyond);
        }
        2 => built[one] = (built[one] + 256) % count,
        3 => built[one] = random.below(count),
        4 => {
            let odd = [Element::Nonterminal(END - 1), Element::Class(1)];
            let production = grammar.productions.iter_mut().rev();
            let late = production.take(300).nth(random.below(300));
            if let Some(late) = late {
                late.elements.push(random.pick(&odd).clone());
            }
        }
        _ => {}
    }
}

/// A build of each piece, in place or in a template of its own.
fn templates(
    random: &mut Random,
    grammar: &Grammar,
    [end, page]: [usize; 2],
    built: &[usize],
) -> Templates {
    let mut templates = Templates::new();
    let text = templates.text(0);
    templates.template(PAGE, [text], Node::Sequence(vec![]));
    let mut children = Vec::new();
    for &number in built {
        let piece = piece(grammar, end, number);
        let expanded = random.once_in(3);
        children.push(match grammar.productions.get(number) {
            Some(production) if expanded => {
                let template = templates.template(production.nonterminal, [text], piece);
                Node::expand(template, [Path::variable(0)])
            }
            _ => piece,
        });
    }
    templates.templates[0].body = Node::build(page as u16, children);
    templates
}

/// A build of a piece, with what its elements ask for.
fn piece(grammar: &Grammar, end: usize, number: usize) -> Node {
    let child = |element: &Element| match element {
        Element::Class(_) => Some(Node::place(Path::variable(0))),
        Element::Nonterminal(_) => Some(Node::build(end as u16, [])),
        Element::Repetition(_) => Some(Node::sequence([Node::build(end as u16, [])])),
        _ => None,
    };
    let production = grammar.productions.get(number);
    let elements = production.map_or(&[][..], |production| &production.elements);
    Node::build(number as u16, elements.iter().filter_map(child))
}

/// Fills the stream with empty productions: to its last record, one less or one more.
fn fill(random: &mut Random, grammar: &mut Grammar) {
    let left = (FULL - 1 + random.below(3)).saturating_sub(grammar.records().len());
    for _ in 0..left {
        grammar.production(0, []);
    }
}
