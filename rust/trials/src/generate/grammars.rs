//! Random grammars in which every nonterminal can be built in one step.

use build::{Element, Grammar, Production};

use super::lexemes::ALPHABETS;
use crate::random::Random;

/// A grammar and the numbers of its nonterminals.
pub(super) struct Drawn {
    pub(super) grammar: Grammar,
    pub(super) nonterminals: Vec<u16>,
}

const KEYWORDS: &[&[u8]] = &[
    b"<",
    b">",
    b"[",
    b"]",
    b", ",
    b"",
    b"item",
    b"<title>",
    b"</title>\n",
    "Ὀδυσσεύς".as_bytes(),
    &[0xFF, 0xFE, 0x00],
    &[0; 9],
    b"a keyword that is longer than a few units of eight bytes",
];

/// Draws a grammar.
pub(super) fn grammar(random: &mut Random) -> Drawn {
    let mut grammar = Grammar::new();
    for _ in 0..random.between(1, 6) {
        draw_class(random, &mut grammar);
        if random.once_in(3) {
            let plain = *random.pick(&grammar.plain_classes());
            grammar.escaped(plain);
        }
    }
    let nonterminals = draw_nonterminals(random);
    for &nonterminal in &nonterminals {
        let elements = elements(random, &grammar, &[]);
        grammar.production(nonterminal, elements);
    }
    for _ in 0..random.below(8) {
        let nonterminal = *random.pick(&nonterminals);
        let elements = elements(random, &grammar, &nonterminals);
        grammar.production(nonterminal, elements);
    }
    let mut rows = grammar.productions.clone();
    for production in &mut rows {
        for element in &mut production.elements {
            if random.once_in(4) {
                *element = repetition(random, &nonterminals);
            }
        }
    }
    if random.once_in(8) {
        let mut before = others(random, &nonterminals);
        before.append(&mut rows);
        rows = before;
    }
    grammar.productions = rows;
    Drawn {
        grammar,
        nonterminals,
    }
}

/// Productions of none of the nonterminals, so that those behind them have numbers of two bytes.
fn others(random: &mut Random, nonterminals: &[u16]) -> Vec<Production> {
    let count = *random.pick(&[250, 253, 255, 256, 300, 510, 695, 1_500]);
    let free = (0..).find(|number| !nonterminals.contains(number));
    let other = Production {
        nonterminal: free.expect("a number that is free"),
        elements: vec![],
    };
    vec![other; count]
}

/// A repetition of one of the nonterminals, with a separator or without.
fn repetition(random: &mut Random, nonterminals: &[u16]) -> Element {
    let nonterminal = *random.pick(nonterminals);
    match random.below(12) {
        0..=5 => Element::Repetition(nonterminal),
        6 => {
            let length = *random.pick(&[63, 64, 65, 504, 505, 1_100]);
            Element::separated(nonterminal, any_bytes(random, length))
        }
        _ => Element::separated(nonterminal, *random.pick(KEYWORDS)),
    }
}

/// So many bytes, mostly no UTF-8.
pub(super) fn any_bytes(random: &mut Random, length: usize) -> Vec<u8> {
    (0..length).map(|_| random.byte()).collect()
}

/// A plain class that has a lexeme.
pub(super) fn draw_class(random: &mut Random, grammar: &mut Grammar) {
    let mut ranges = Vec::new();
    for _ in 0..random.between(1, 3) {
        let alphabet = *random.pick(ALPHABETS);
        ranges.extend_from_slice(alphabet);
    }
    if random.once_in(12) {
        grammar.class(0, 3, &[]);
        return;
    }
    if random.once_in(8) {
        ranges.push((0xD800, 0xDFFF));
    }
    let least = *random.pick(&[0, 0, 1, 1, 2, 5]);
    let most = least + *random.pick(&[0, 1, 3, 10, 60, 600, 65_000]);
    grammar.class(least, most, &ranges);
}

/// Some nonterminals, in a row from 0 or anywhere in 16 bits.
fn draw_nonterminals(random: &mut Random) -> Vec<u16> {
    let count = random.between(1, 5);
    if random.once_in(2) {
        return (0..count as u16).collect();
    }
    let mut numbers: Vec<u16> = (0..count).map(|_| random.number() as u16).collect();
    numbers.sort_unstable();
    numbers.dedup();
    numbers
}

/// A few elements; nonterminals only of those given.
fn elements(random: &mut Random, grammar: &Grammar, nonterminals: &[u16]) -> Vec<Element> {
    let count = random.below(6);
    let mut elements = Vec::with_capacity(count);
    for _ in 0..count {
        elements.push(match random.below(5) {
            2 | 3 => Element::Class(random.below(grammar.classes.len()) as u16),
            4 if !nonterminals.is_empty() => Element::Nonterminal(*random.pick(nonterminals)),
            _ => Element::keyword(*random.pick(KEYWORDS)),
        });
    }
    elements
}
