//! Refusal 6, and what a lexeme of a class is.

use std::ops::RangeInclusive;

use crate::answer::{Kind, Refusal};
use crate::escape::unescaped;
use crate::grammar::{Class, Grammar, PlainClass};

const LAST_CODE_POINT: u32 = 0x10_FFFF;
const ASCII: u32 = 128;

/// The characters that XML 1.0 admits (02 d).
const ADMITTED: [RangeInclusive<u32>; 6] = [
    0x9..=0x9,
    0xA..=0xA,
    0xD..=0xD,
    0x20..=0xD7FF,
    0xE000..=0xFFFD,
    0x1_0000..=0x10_FFFF,
];

/// The range of admitted characters that a code point lies in.
fn admitted(code: u32) -> Option<&'static RangeInclusive<u32>> {
    ADMITTED.iter().find(|range| range.contains(&code))
}

/// The first class or range of a grammar that is upside down or passes U+10FFFF. An escaped class has
/// neither bounds nor ranges. Ranges may hold what XML doesn't admit.
pub(crate) fn judge(grammar: &Grammar<'_>) -> Result<(), Refusal> {
    for class in &grammar.classes {
        let Class::Plain(class) = class else {
            continue;
        };
        if class.least > class.most {
            return Err(Refusal::at(6, Kind::Grammar, class.place));
        }
        for range in &class.ranges {
            if range.lowest > range.highest || range.highest > LAST_CODE_POINT {
                return Err(Refusal::at(6, Kind::Grammar, range.place));
            }
        }
    }
    Ok(())
}

/// The lexemes of all classes, made ready for many texts.
pub(crate) struct Lexemes {
    classes: Vec<Lexeme>,
}

/// What a lexeme of one class is.
enum Lexeme {
    Plain(PlainLexeme),
    /// An escaped lexeme of the plain class with this number.
    Escaped(u16),
}

impl Lexemes {
    pub(crate) fn of(grammar: &Grammar<'_>) -> Self {
        let lexeme = |class: &Class| match class {
            Class::Plain(plain) => Lexeme::Plain(PlainLexeme::of(plain)),
            Class::Escaped(escaped) => Lexeme::Escaped(escaped.plain),
        };
        let classes = grammar.classes.iter().map(lexeme).collect();
        Lexemes { classes }
    }

    /// Whether a text is a lexeme of the class with this number.
    pub(crate) fn contain(&self, class: u16, text: &[u8]) -> bool {
        match &self.classes[usize::from(class)] {
            Lexeme::Plain(lexeme) => lexeme.is(text),
            Lexeme::Escaped(plain) => {
                unescaped(text).is_some_and(|text| self.contain(*plain, &text))
            }
        }
    }
}

/// The lexemes of a plain class.
struct PlainLexeme {
    counts: RangeInclusive<usize>,
    /// Which of these characters a lexeme may have.
    ascii: [bool; ASCII as usize],
    /// In order, and none touching the next.
    ranges: Vec<RangeInclusive<u32>>,
}

impl PlainLexeme {
    fn of(class: &PlainClass) -> Self {
        let ranges = merged(class);
        let mut ascii = [false; ASCII as usize];
        for range in &ranges {
            for code in *range.start()..ASCII.min(*range.end() + 1) {
                ascii[code as usize] = admitted(code).is_some();
            }
        }
        PlainLexeme {
            counts: class.least.into()..=class.most.into(),
            ascii,
            ranges,
        }
    }

    /// A lexeme is well-formed UTF-8 with a character count from least to most, each character
    /// admitted by XML and in some range. Counts are of characters, never bytes.
    fn is(&self, text: &[u8]) -> bool {
        if text.is_ascii() {
            let held = text.iter().all(|&byte| self.ascii[usize::from(byte)]);
            return self.counts.contains(&text.len()) && held;
        }
        match std::str::from_utf8(text) {
            Ok(text) => self.holds_all(text),
            Err(_) => false,
        }
    }

    fn holds_all(&self, text: &str) -> bool {
        let mut count = 0;
        // Neighbours in a text mostly lie in one range.
        let mut near = None;
        for character in text.chars() {
            let code = u32::from(character);
            let held = match self.ascii.get(code as usize) {
                Some(&held) => held,
                None => {
                    near = near.filter(|range: &RangeInclusive<u32>| range.contains(&code));
                    near = near.or_else(|| self.range_of(code));
                    near.is_some()
                }
            };
            if !held {
                return false;
            }
            count += 1;
        }
        self.counts.contains(&count)
    }

    /// The characters around one that are in the class's range and admitted as it is.
    fn range_of(&self, code: u32) -> Option<RangeInclusive<u32>> {
        let index = self.ranges.partition_point(|range| *range.end() < code);
        let held = self
            .ranges
            .get(index)
            .filter(|range| range.contains(&code))?;
        let admitted = admitted(code)?;
        let lowest = held.start().max(admitted.start());
        let highest = held.end().min(admitted.end());
        Some(*lowest..=*highest)
    }
}

/// The ranges of a class in order, those that meet put together.
fn merged(class: &PlainClass) -> Vec<RangeInclusive<u32>> {
    let mut pairs: Vec<(u32, u32)> = class
        .ranges
        .iter()
        .map(|range| (range.lowest, range.highest))
        .collect();
    pairs.sort_unstable();
    let mut merged: Vec<(u32, u32)> = Vec::with_capacity(pairs.len());
    for (lowest, highest) in pairs {
        match merged.last_mut() {
            Some((_, end)) if lowest <= *end + 1 => *end = highest.max(*end),
            _ => merged.push((lowest, highest)),
        }
    }
    merged.into_iter().map(|(low, high)| low..=high).collect()
}

#[cfg(test)]
mod tests {
    use super::*;
    use crate::grammar::CodeRange;

    fn class(least: u16, most: u16, ranges: &[(u32, u32)]) -> PlainLexeme {
        let ranges = ranges.iter().map(|&(lowest, highest)| CodeRange {
            place: 0,
            lowest,
            highest,
        });
        PlainLexeme::of(&PlainClass {
            place: 0,
            least,
            most,
            ranges: ranges.collect(),
        })
    }

    #[test]
    fn counts_are_of_characters() {
        let lexeme = class(1, 4, &[(0x370, 0x3FF), (0x61, 0x7A)]);
        assert!(lexeme.is("αβγδ".as_bytes()));
        assert!(!lexeme.is("αβγδε".as_bytes()));
        assert!(lexeme.is(b"abcd"));
        assert!(!lexeme.is(b""));
        assert!(!lexeme.is(b"AB"));
        assert!(!lexeme.is(&[0xC0, 0x80]));
    }

    #[test]
    fn ranges_may_overlap_touch_and_hold_surrogates() {
        let lexeme = class(
            0,
            9,
            &[
                (0xD700, 0xDFFF),
                (0x7F, 0x100),
                (0x80, 0x90),
                (0x101, 0x102),
            ],
        );
        assert!(lexeme.is("".as_bytes()));
        assert!(lexeme.is("\u{7F}\u{80}\u{100}\u{101}\u{D7FF}".as_bytes()));
        assert!(!lexeme.is(&[0xED, 0xA0, 0x80]));
        assert!(!lexeme.is("\u{103}".as_bytes()));
        assert!(!lexeme.is("\u{7E}".as_bytes()));
    }

    #[test]
    fn what_xml_admits() {
        let inside = [
            0x9, 0xA, 0xD, 0x20, 0x7F, 0x80, 0x85, 0x9F, 0xD7FF, 0xE000, 0xFDD0, 0xFFFD, 0x1_0000,
            0x1_FFFE, 0x1_FFFF, 0x10_FFFF,
        ];
        let outside = [
            0x0, 0x8, 0xB, 0xC, 0xE, 0x1F, 0xD800, 0xDFFF, 0xFFFE, 0xFFFF, 0x11_0000,
        ];
        let admits = |code| admitted(code).is_some();
        assert!(inside.into_iter().all(admits));
        assert!(!outside.into_iter().any(admits));
    }

    #[test]
    fn a_character_is_admitted_as_well_as_in_a_range() {
        let lexeme = class(0, 9, &[(0, 0x41), (0xFFFC, 0x1_0000)]);
        assert!(lexeme.is("\t\n\r A\u{FFFC}\u{FFFD}\u{10000}".as_bytes()));
        assert!(!lexeme.is(b"a") && !lexeme.is("\u{10001}".as_bytes()));
        for odd in ['\0', '\u{8}', '\u{B}', '\u{1F}', '\u{FFFE}', '\u{FFFF}'] {
            for text in [format!("{odd}"), format!("A\u{FFFD}{odd}\u{10000}")] {
                assert!(!lexeme.is(text.as_bytes()), "{text:?}");
            }
        }
    }

    #[test]
    fn a_class_without_ranges_has_at_most_the_empty_lexeme() {
        assert!(class(0, 3, &[]).is(b""));
        assert!(!class(1, 3, &[]).is(b""));
        assert!(!class(0, 3, &[]).is(b"a"));
    }
}
