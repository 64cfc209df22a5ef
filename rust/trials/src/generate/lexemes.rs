//! Texts of a class, and texts that just miss it.

use build::borders::OTHERS;
use build::{escaped, PlainClass};

use crate::admission::is_admitted;
use crate::escapes;
use crate::random::Random;

/// Ranges of characters, among them those at the borders of UTF-8's lengths. Each has some that XML
/// 1.0 admits.
pub(super) const ALPHABETS: &[&[(u32, u32)]] = &[
    &[(0x61, 0x7A)],
    &[(0x20, 0x7E)],
    &[(0x370, 0x3FF)],
    &[(0x61, 0x7A), (0x370, 0x3FF), (0x1F00, 0x1FFF)],
    &[(0x400, 0x4FF), (0x30, 0x39)],
    &[(0x4E00, 0x9FFF), (0x3040, 0x30FF)],
    &[(0x1F300, 0x1FAFF), (0x20, 0x20)],
    &[(0x7F, 0x80), (0x7FF, 0x800)],
    &[(0xFFFF, 0x10000), (0x10FFFF, 0x10FFFF)],
    &[(0xD7FF, 0xE000)],
    &[(0x61, 0x63), (0x62, 0x64), (0x65, 0x65), (0x70, 0x70)],
    &[(0, 0x1F)],
    FIVE,
    FIVE,
    &[(0, 0x10FFFF)],
];

/// The characters that are escaped.
pub(super) const FIVE: &[(u32, u32)] = &[(0x22, 0x22), (0x26, 0x27), (0x3C, 0x3C), (0x3E, 0x3E)];

/// Bytes that are no well-formed UTF-8.
const ILL_FORMED: &[&[u8]] = &[
    &[0x80],
    &[0xC0, 0x80],
    &[0xC1, 0xBF],
    &[0xC2],
    &[0xE0, 0x9F, 0xBF],
    &[0xED, 0xA0, 0x80],
    &[0xEF, 0xBF],
    &[0xF0, 0x8F, 0xBF, 0xBF],
    &[0xF4, 0x90, 0x80, 0x80],
    &[0xF5, 0x80, 0x80, 0x80],
    &[0xFF],
    &[0xCE, 0x61],
];

/// A character of a class, if it has one that is admitted.
fn character(random: &mut Random, class: &PlainClass) -> Option<char> {
    if class.ranges.is_empty() {
        return None;
    }
    let admitted = |code| char::from_u32(code).filter(|&character| is_admitted(character));
    for _ in 0..8 {
        let &(lowest, highest) = random.pick(&class.ranges);
        let code = match random.below(6) {
            0 => lowest,
            1 => highest,
            _ => random.between(lowest as usize, highest.max(lowest) as usize) as u32,
        };
        if let Some(character) = admitted(code) {
            return Some(character);
        }
    }
    let mut ranges = class.ranges.iter();
    ranges.find_map(|&(low, high)| (low..=high).find_map(admitted))
}

/// So many characters of a class.
fn characters(random: &mut Random, class: &PlainClass, count: usize) -> Vec<u8> {
    let text: String = (0..count)
        .filter_map(|_| character(random, class))
        .collect();
    text.into_bytes()
}

/// A lexeme of a class that has one.
pub(super) fn lexeme(random: &mut Random, class: &PlainClass) -> Vec<u8> {
    let (least, most) = (usize::from(class.least), usize::from(class.most));
    let extent = *random.pick(&[0, 1, 4, 12, 40, 400]);
    let count = random.between(least, most.min(least + extent).max(least));
    characters(random, class, count)
}

/// A character just outside a range of the class, one far from most, or one that isn't admitted.
fn odd_character(random: &mut Random, class: &PlainClass) -> char {
    let far = *random.pick(&['A', 'ё', '\u{37E}', '\u{1F600}', '\u{10FFFF}']);
    if random.once_in(4) {
        return *random.pick(&OTHERS);
    }
    if class.ranges.is_empty() || random.once_in(4) {
        return far;
    }
    let &(lowest, highest) = random.pick(&class.ranges);
    let near = *random.pick(&[lowest.saturating_sub(1), highest + 1]);
    char::from_u32(near).unwrap_or(far)
}

/// A text that is mostly no lexeme of the class: by its count, a character or its bytes.
pub(super) fn near_lexeme(random: &mut Random, class: &PlainClass) -> Vec<u8> {
    let (least, most) = (usize::from(class.least), usize::from(class.most));
    match random.below(4) {
        0 => characters(random, class, (most + 1).min(600)),
        1 => characters(random, class, least.saturating_sub(1)),
        2 => {
            let mut text = String::from_utf8_lossy(&lexeme(random, class)).into_owned();
            let starts: Vec<usize> = text.char_indices().map(|(at, _)| at).collect();
            let at = starts.get(random.below(starts.len() + 1)).copied();
            let odd = odd_character(random, class);
            text.insert(at.unwrap_or(text.len()), odd);
            text.into_bytes()
        }
        _ => {
            let mut text = lexeme(random, class);
            let bytes = *random.pick(ILL_FORMED);
            text.extend_from_slice(bytes);
            text
        }
    }
}

/// An escaped lexeme of a class that has one.
pub(super) fn escaped_lexeme(random: &mut Random, class: &PlainClass) -> Vec<u8> {
    escaped(&lexeme(random, class))
}

/// A text that is mostly no escaped lexeme of the class: one that isn't escaped, one that just misses
/// the class, or one with another reference.
pub(super) fn near_escaped(random: &mut Random, class: &PlainClass) -> Vec<u8> {
    let mut text = escaped_lexeme(random, class);
    match random.below(4) {
        0 => return lexeme(random, class),
        1 => return escaped(&near_lexeme(random, class)),
        2 => text.extend_from_slice(b"&#38;"),
        _ => escapes::damage(random, &mut text),
    }
    text
}
