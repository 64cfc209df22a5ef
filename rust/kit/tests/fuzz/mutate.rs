//! Texts changed at random: by bytes, characters, tokens, lines and parts.

use super::random::Random;

/// No changed text is longer, so that a case stays quick.
const LONGEST: usize = 200_000;

/// The words that begin the parts of a description.
const PARTS: [&str; 5] = ["class", "production", "type", "template", "value"];

/// Characters that readers of texts stumble over.
const CHARACTERS: &[&str] = &[
    "\0",
    "\u{1}",
    "\t",
    "\r",
    "\u{B}",
    "\u{1B}[2J",
    "\u{7F}",
    "\u{85}",
    "\u{A0}",
    "\u{FEFF}",
    "\u{200B}",
    "\u{202E}",
    "\u{2028}",
    "\u{D7FF}",
    "\u{E000}",
    "\u{FFFE}",
    "\u{10FFFF}",
    "é",
    "e\u{301}",
    "🌅",
    "\"",
    "'",
    "\\",
    "#",
    ",",
    "&",
    "<",
    "{",
    "}",
    "[",
    "]",
    "(",
    ")",
    "/",
];

/// Bytes that are no UTF-8, alone or where they are put.
const BYTES: &[&[u8]] = &[
    b"\xFF",
    b"\xC0\x80",
    b"\xED\xA0\x80",
    b"\xF4\x90\x80\x80",
    b"\xCE",
    b"\x80",
    b"\xFE\xFF",
    b"\xF0\x9F\x8C",
    b"\xEF\xBB\xBF",
];

/// A text with one to some changes; new tokens come from a row.
pub fn mutated(random: &mut Random, text: &[u8], tokens: &[&str]) -> Vec<u8> {
    let mut text = text.to_vec();
    let changes = 1 + random.mostly_small(6);
    for _ in 0..changes {
        text = changed(random, text, tokens);
        text.truncate(LONGEST);
    }
    text
}

fn changed(random: &mut Random, mut text: Vec<u8>, tokens: &[&str]) -> Vec<u8> {
    match random.below(20) {
        0 => {
            put(random, &mut text, |random| random.pick(BYTES).to_vec());
            text
        }
        1 => {
            flip(random, &mut text);
            text
        }
        2..=4 => {
            let character = |random: &mut Random| random.pick(CHARACTERS).as_bytes().to_vec();
            put(random, &mut text, character);
            text
        }
        5 => {
            text.truncate(random.below(text.len() + 1));
            text
        }
        6..=13 => pieces_changed(random, split_tokens(&text), tokens),
        14..=16 => pieces_changed(random, split_lines(&text), tokens),
        _ => pieces_changed(random, split_parts(&text), tokens),
    }
}

/// Puts something in at a place, or in place of what is there.
fn put(random: &mut Random, text: &mut Vec<u8>, new: impl Fn(&mut Random) -> Vec<u8>) {
    let place = random.below(text.len() + 1);
    let new = new(random);
    let gone = random.below(3).min(text.len() - place);
    text.splice(place..place + gone, new);
}

fn flip(random: &mut Random, text: &mut [u8]) {
    if text.is_empty() {
        return;
    }
    let place = random.below(text.len());
    text[place] ^= 1 << random.below(8);
}

/// The tokens of a text: words, texts in quotes, blanks, and all else character by character.
fn split_tokens(text: &[u8]) -> Vec<&[u8]> {
    let is_word = |byte: &u8| byte.is_ascii_alphanumeric() || *byte == b'_' || *byte >= 0x80;
    let mut found = Vec::new();
    let mut rest = text;
    while let Some(&first) = rest.first() {
        let run = |holds: &dyn Fn(&u8) -> bool| rest.iter().take_while(|it| holds(it)).count();
        let length = match first {
            b'"' => {
                (1 + rest[1..].iter().take_while(|it| **it != b'"').count() + 1).min(rest.len())
            }
            _ if is_word(&first) => run(&is_word),
            _ if first.is_ascii_whitespace() => run(&u8::is_ascii_whitespace),
            _ => 1,
        };
        let (token, after) = rest.split_at(length);
        found.push(token);
        rest = after;
    }
    found
}

fn split_lines(text: &[u8]) -> Vec<&[u8]> {
    text.split_inclusive(|byte| *byte == b'\n').collect()
}

/// The parts of a description, or the lines of another text.
fn split_parts(text: &[u8]) -> Vec<&[u8]> {
    let mut found: Vec<&[u8]> = Vec::new();
    let mut start = 0;
    let mut at = 0;
    for line in split_lines(text) {
        if at > start && PARTS.iter().any(|word| line.starts_with(word.as_bytes())) {
            found.push(&text[start..at]);
            start = at;
        }
        at += line.len();
    }
    found.push(&text[start..]);
    match found.len() {
        1 => split_lines(text),
        _ => found,
    }
}

/// Pieces left out, doubled, repeated, exchanged, moved or replaced.
fn pieces_changed<'a>(
    random: &mut Random,
    mut pieces: Vec<&'a [u8]>,
    tokens: &[&'a str],
) -> Vec<u8> {
    if pieces.is_empty() {
        return random.pick(tokens).as_bytes().to_vec();
    }
    let place = random.below(pieces.len());
    let other = random.below(pieces.len());
    let piece = pieces[place];
    match random.below(9) {
        0 => drop(pieces.remove(place)),
        1 => drop(pieces.drain(place.min(other)..place.max(other))),
        2 => pieces.insert(place, piece),
        3 => pieces.swap(place, other),
        4 => pieces.insert(other, piece),
        5 => {
            let times = random.mostly_small(3000).min(LONGEST / (piece.len() + 1));
            pieces.splice(place..place, std::iter::repeat_n(piece, times));
        }
        6 => {
            let (before, after) = (pieces[..place].concat(), pieces[place + 1..].concat());
            return [before, grown(random, piece), after].concat();
        }
        7 => pieces.insert(place, random.pick(tokens).as_bytes()),
        _ => pieces[place] = random.pick(tokens).as_bytes(),
    }
    pieces.concat()
}

/// A piece whose inside is repeated: a long name, number, text or line.
fn grown(random: &mut Random, piece: &[u8]) -> Vec<u8> {
    let middle = piece.len() / 2;
    let (before, after) = piece.split_at(middle);
    let inside: &[u8] = match before.last() {
        Some(_) => &before[middle - 1..],
        None => b"x",
    };
    let times = random.mostly_small(80_000);
    [before, &inside.repeat(times), after].concat()
}
