//! Texts in which the five characters are frequent, and texts that no escaping makes.

use build::escaped;

use crate::random::Random;

/// Characters of every length, the escaped ones, and what makes up their entities.
const CHARACTERS: [&str; 20] = [
    "&", "<", ">", "\"", "'", "&", "<", "a", "z", " ", ";", "#", "amp;", "lt", "\t", "\u{7F}", "α",
    "\u{FFFD}", "語", "😀",
];

/// Characters that no lexeme has; unescaping knows of no lexeme.
const OTHERS: [&str; 4] = ["\0", "\u{B}", "\u{1F}", "\u{FFFF}"];

/// What no escaping makes, or makes of something else.
const ODD: [&[u8]; 28] = [
    b"&",
    b"<",
    b">",
    b"\"",
    b"'",
    b"&#38;",
    b"&#x26;",
    b"&#39;",
    b"&AMP;",
    b"&Lt;",
    b"&nbsp;",
    b"&;",
    b"&amp",
    b"&lt",
    b"&gt",
    b"&quot",
    b"&apos",
    b"&am",
    b"&amp &amp;",
    b"&&amp;",
    b"&amp;amp;",
    b"&lt;gt;",
    b"\x80",
    b"\xCE",
    b"\xC0\xA6",
    b"\xED\xA0\x80",
    b"\xF4\x90\x80\x80",
    b"\xE2\x82&amp;",
];

/// A text in which the five characters are frequent, once in a while over many blocks.
pub(crate) fn plain(random: &mut Random) -> Vec<u8> {
    draw(random, &CHARACTERS)
}

fn draw(random: &mut Random, characters: &[&str]) -> Vec<u8> {
    let most = *random.pick(&[0, 1, 2, 4, 8, 30, 100, 700, 2_000]);
    let count = random.below(most + 1);
    let own = *random.pick(characters);
    let repeats = random.once_in(8);
    let character = |_| match repeats {
        true => own,
        false => *random.pick(characters),
    };
    let text: String = (0..count).map(character).collect();
    text.into_bytes()
}

/// A text to be unescaped: mostly an escaped one, damaged in half of the cases.
pub(crate) fn text(random: &mut Random) -> Vec<u8> {
    let mut text = escaped(&draw(random, &[&CHARACTERS[..], &OTHERS].concat()));
    if random.once_in(60) {
        text = text.repeat(1 + 70_000 / text.len().max(1));
    }
    if random.once_in(2) {
        damage(random, &mut text);
    }
    text
}

/// Cuts a text, puts something odd into it or behind it, changes a byte or takes one away.
pub(crate) fn damage(random: &mut Random, text: &mut Vec<u8>) {
    let at = random.below(text.len());
    match random.below(6) {
        0 => text.truncate(at),
        1 | 2 => {
            text.splice(at..at, random.pick(&ODD).iter().copied());
        }
        3 => text.extend(*random.pick(&ODD)),
        4 if !text.is_empty() => text[at] ^= *random.pick(&[0x01, 0x20, 0x80]),
        _ if !text.is_empty() => drop(text.remove(at)),
        _ => {}
    }
}
