//! Which characters and which texts the classes of a description admit.

use crate::language::description::{Class, ClassForm, Description, Range};
use crate::reasons::characters::is_admitted;
use std::collections::HashMap;

/// The characters that a lexeme may have, whatever the ranges are: those of [`is_admitted`], as intervals.
const ADMITTED: [(u32, u32); 5] = [
    (0x9, 0xA),
    (0xD, 0xD),
    (0x20, 0xD7FF),
    (0xE000, 0xFFFD),
    (0x10000, 0x0010_FFFF),
];

/// The texts that are lexemes of a class.
#[derive(Clone, Copy, Debug, PartialEq, Eq)]
pub enum Texts {
    /// There is none.
    None,
    /// The empty text is the only one.
    Empty,
    /// There are others than the empty one.
    Others,
}

/// A plain class: how many characters of which ranges its lexemes have.
#[derive(Clone, Copy)]
pub struct Plain<'a> {
    /// The least characters.
    pub least: u16,
    /// The most characters.
    pub most: u16,
    /// The ranges.
    pub ranges: &'a [Range],
}

impl<'a> Plain<'a> {
    /// The plain class that a form is, if it is one.
    pub fn of(form: &'a ClassForm) -> Option<Self> {
        match form {
            ClassForm::Plain {
                least,
                most,
                ranges,
            } => Some(Self {
                least: *least,
                most: *most,
                ranges,
            }),
            ClassForm::Escaped(_) => None,
        }
    }

    /// Whether a character may be in a lexeme.
    pub fn admits(self, character: char) -> bool {
        let point = u32::from(character);
        let within = |range: &Range| range.lowest <= point && point <= range.highest;
        self.most > 0 && is_admitted(character) && self.ranges.iter().any(within)
    }

    /// The texts that are lexemes.
    pub fn texts(self) -> Texts {
        let with_characters = self.most > 0 && self.ranges.iter().any(holds_any);
        match self.least {
            least if least > self.most => Texts::None,
            _ if with_characters => Texts::Others,
            0 => Texts::Empty,
            _ => Texts::None,
        }
    }
}

/// Whether a range holds any character that a lexeme may have. Surrogates are none: no UTF-8 has them.
pub fn holds_any(range: &Range) -> bool {
    ADMITTED
        .iter()
        .any(|&(first, last)| range.lowest.max(first) <= range.highest.min(last))
}

/// The classes by their names.
pub struct Classes<'a>(HashMap<&'a str, &'a Class>);

impl<'a> Classes<'a> {
    /// The classes of a description.
    pub fn of(tree: &'a Description) -> Self {
        let named = |class: &'a Class| (class.name.word.as_str(), class);
        Self(tree.classes.iter().map(named).collect())
    }

    /// The class with a name.
    pub fn get(&self, name: &str) -> Option<&'a Class> {
        self.0.get(name).copied()
    }

    /// The plain class with a name.
    pub fn plain(&self, name: &str) -> Option<Plain<'a>> {
        Plain::of(&self.get(name)?.form)
    }

    /// The texts that are lexemes of the class with a name, if it is known: an escaped class has as many
    /// as its plain one.
    pub fn texts(&self, name: &str) -> Option<Texts> {
        let plain = match &self.get(name)?.form {
            ClassForm::Escaped(plain) => plain.word.as_str(),
            ClassForm::Plain { .. } => name,
        };
        self.plain(plain).map(Plain::texts)
    }
}

#[cfg(test)]
mod tests {
    use super::*;
    use crate::language::parser::parse;
    use crate::mistake::Position;

    fn holds(lowest: u32, highest: u32) -> bool {
        holds_any(&Range {
            at: Position { line: 1, column: 1 },
            lowest,
            highest,
        })
    }

    #[test]
    fn every_character_is_admitted_as_elsewhere() {
        for character in '\0'..=char::MAX {
            let point = u32::from(character);
            assert_eq!(holds(point, point), is_admitted(character), "{character:?}");
        }
    }

    #[test]
    fn ranges_with_a_character_and_without() {
        assert!(holds(0, 9));
        assert!(holds(0xD800, 0xE000));
        assert!(!holds(0, 8));
        assert!(!holds(0xD800, 0xDFFF));
        assert!(!holds(0x0011_0000, 0x00FF_FFFF));
        assert!(!holds(0x7A, 0x61));
    }

    #[test]
    fn texts_of_classes() {
        let tree = parse(
            "class letters 1 to 4 { 'a'-'z' U+0000 } class xml = escaped letters class more = escaped xml
             class none 1 to 4 { U+000B } class empty 0 to 4 { U+000B } class turned 4 to 1 { 'a' }
             class short 0 to 0 { 'a' } class xml_none = escaped none",
        )
        .expect("a description");
        let classes = Classes::of(&tree);
        for (name, texts) in [
            ("letters", Some(Texts::Others)),
            ("xml", Some(Texts::Others)),
            ("more", None),
            ("none", Some(Texts::None)),
            ("empty", Some(Texts::Empty)),
            ("turned", Some(Texts::None)),
            ("short", Some(Texts::Empty)),
            ("xml_none", Some(Texts::None)),
            ("other", None),
        ] {
            assert_eq!(classes.texts(name), texts, "{name}");
        }
        let admits = |name, character| classes.plain(name).expect("a class").admits(character);
        assert!(admits("letters", 'z'));
        assert!(!admits("letters", '\0'));
        assert!(!admits("letters", '{'));
        assert!(!admits("short", 'a'));
    }
}
