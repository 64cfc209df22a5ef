//! Random descriptions: known ones that are changed, and new ones.

use super::data::data;
use super::extremes::extreme;
use super::mutate::mutated;
use super::plan::Plan;
use super::random::Random;
use kit::language::parser::parse;

const STARTER: &str = include_str!("../../src/starter/feed.txt");
const HARBOUR: &str = include_str!("../../../../examples/harbour/feed.txt");
const PODCAST: &str = include_str!("../../../../examples/podcast/feed.txt");
const MEDIA: &str = include_str!("../../../../examples/media/feed.txt");

/// What is put into descriptions.
pub const TOKENS: &[&str] = &[
    "class ",
    "production ",
    "type ",
    "template ",
    "value ",
    "of ",
    "to ",
    "= ",
    "escaped ",
    "text ",
    "yesno ",
    "list ",
    "record { ",
    "variant { ",
    "build ",
    "literal ",
    "place ",
    "expand ",
    "if ",
    "then ",
    "else ",
    "for ",
    "in ",
    "do ",
    "sequence (",
    "match ",
    "as ",
    "case ",
    "0 as x then ",
    "yes ",
    "no ",
    "{ ",
    "} ",
    "( ",
    ") ",
    "[ ",
    "] ",
    ": ",
    ". ",
    "* ",
    "*(",
    "- ",
    "\"",
    "'",
    "\\",
    "# ",
    "0 ",
    "1 ",
    "255 ",
    "256 ",
    "65535 ",
    "65536 ",
    "4294967296 ",
    "99999999999999999999999 ",
    "U+0 ",
    "U+110000 ",
    "U+FFFFFF ",
    "U+1000000 ",
    "U+ ",
    "'a' ",
    "'\\'' ",
    "''' ",
    "'ab' ",
    "\"\" ",
    "\"\\x4\" ",
    "\"\\xFF\" ",
    "\"\\u{110000}\" ",
    "\"\\u{D800}\" ",
    "\"\\u{\" ",
    "\"\\",
    "\u{FEFF}",
    "\0",
    "\u{1B}[2J",
    "\r",
    "0.0.0.0.0.0.0 ",
    "0.0 ",
    "256.0 ",
    "title ",
    "titles ",
    "entry ",
    "main ",
    "channel ",
    "episode ",
    "\n",
    ", ",
    "é ",
];

/// A description that is right, without a value: one of the known, or a new one.
pub fn right(random: &mut Random) -> String {
    let known = [STARTER, HARBOUR, PODCAST, MEDIA];
    match random.below(6) {
        at @ 0..=3 => without_value(known[at]).to_string(),
        _ => {
            let mut plan = Plan::new(random);
            plan.slips = 0;
            plan.written(random)
        }
    }
}

/// A known description up to its value, which is its last part.
fn without_value(text: &str) -> &str {
    text.find("\nvalue ").map_or(text, |end| &text[..=end])
}

/// A new description, with a value or without.
pub fn new(random: &mut Random) -> String {
    let text = Plan::new(random).written(random);
    match random.below(6) {
        0 => text,
        _ => with_value(random, text),
    }
}

/// A description with a value that is mostly of its declared type.
pub fn with_value(random: &mut Random, text: String) -> String {
    let slips = *random.pick(&[0, 0, 20, 100]);
    let tree = parse(&text).ok();
    match tree.and_then(|tree| data(random, &tree, slips)) {
        Some(data) => format!("{text}\nvalue {}\n", data.as_value()),
        None => text,
    }
}

/// Any description, as the bytes of its file.
pub fn any(random: &mut Random) -> Vec<u8> {
    let text = match random.below(12) {
        0 => STARTER.to_string(),
        1 | 2 => HARBOUR.to_string(),
        3 => random.pick(&[PODCAST, MEDIA]).to_string(),
        4 | 5 => extreme(random),
        _ => new(random),
    };
    match random.below(5) {
        0 | 1 => mutated(random, text.as_bytes(), TOKENS),
        _ => text.into_bytes(),
    }
}
