//! Classes that admit no text, or only the empty one, and ranges that admit no character.
//!
//! Each is legal, and of no use: a text of such a class is never right, or is never there.

use super::admits::{holds_any, Classes, Plain, Texts};
use crate::language::description::{Class, ClassForm, Description, Range};
use crate::mistake::Mistake;
use crate::words::{counted, named};

/// What is said of the classes.
pub fn barren(tree: &Description) -> Vec<Mistake> {
    let classes = Classes::of(tree);
    let mut found = Vec::new();
    for class in &tree.classes {
        match &class.form {
            ClassForm::Escaped(plain) => found.extend(escaped(&classes, class, &plain.word)),
            form => {
                let plain = Plain::of(form);
                found.extend(plain.into_iter().flat_map(|plain| said_of(class, plain)));
            }
        }
    }
    found
}

/// An escaped class has no text where its plain one has none. Of one with the empty text alone the plain
/// one is told, where the ranges are.
fn escaped(classes: &Classes<'_>, class: &Class, plain: &str) -> Option<Mistake> {
    let name = &class.name.word;
    let barren = classes.texts(name) == Some(Texts::None);
    let message = format!(
        "class {} admits no text at all: it is the escaped form of class {}, which admits none",
        named(name),
        named(plain)
    );
    barren.then(|| Mistake::new(class.name.at, message))
}

/// The class as a whole comes first. Its ranges aren't told one by one where that says it of all of them.
fn said_of(class: &Class, plain: Plain<'_>) -> Vec<Mistake> {
    let name = named(&class.name.word);
    let whole = match plain.texts() {
        Texts::None => Some(format!(
            "class {name} admits no text at all: {}",
            why_no_text(plain)
        )),
        Texts::Empty => {
            why_empty(plain).map(|why| format!("class {name} admits only the empty text: {why}"))
        }
        Texts::Others => None,
    };
    let whole = whole.map(|message| Mistake::new(class.name.at, message));
    let mut said: Vec<Mistake> = whole.into_iter().collect();
    if plain.ranges.iter().any(holds_any) {
        let unfit = plain.ranges.iter().filter(|range| !holds_any(range));
        said.extend(unfit.map(|range| range_said(&name, range)));
    }
    said
}

fn why_no_text(plain: Plain<'_>) -> String {
    let least = counted(usize::from(plain.least), "character", "characters");
    if plain.least > plain.most {
        return format!("it wants at least {least}, and at most {}", plain.most);
    }
    format!("it wants at least {least}, and {}", no_character(plain))
}

/// Why there is only the empty text; a class of 0 to 0 characters without ranges says so itself.
fn why_empty(plain: Plain<'_>) -> Option<String> {
    let has_ranges = !plain.ranges.is_empty();
    match (plain.most, has_ranges) {
        (0, false) => None,
        (0, true) => Some("it has ranges, but takes at most 0 characters".to_string()),
        (most, _) => Some(format!(
            "it takes up to {}, but {}",
            counted(usize::from(most), "character", "characters"),
            no_character(plain)
        )),
    }
}

fn no_character(plain: Plain<'_>) -> &'static str {
    match plain.ranges {
        [] => "it has no range",
        _ => "its ranges hold none that XML 1.0 admits",
    }
}

fn range_said(name: &str, range: &Range) -> Mistake {
    let &Range {
        at,
        lowest,
        highest,
    } = range;
    let why = match lowest > highest {
        true => "its first is above its last",
        false => "it has none that XML 1.0 admits",
    };
    let range = match lowest == highest {
        true => format!("U+{lowest:04X}"),
        false => format!("U+{lowest:04X}-U+{highest:04X}"),
    };
    let message = format!("the range {range} of class {name} admits no character: {why}");
    Mistake::new(at, message)
}

#[cfg(test)]
mod tests {
    use super::barren;
    use crate::language::parser::parse;

    fn said(description: &str) -> Vec<String> {
        barren(&parse(description).expect("a description"))
            .iter()
            .map(ToString::to_string)
            .collect()
    }

    const NONE: [&str; 0] = [];

    #[test]
    fn a_class_that_admits_nothing() {
        assert_eq!(
            said("class a 1 to 4 { U+0000-U+0008 U+D800-U+DFFF }\nclass b = escaped a"),
            [
                "line 1, column 7: class `a` admits no text at all: \
                 it wants at least 1 character, and its ranges hold none that XML 1.0 admits",
                "line 2, column 7: class `b` admits no text at all: \
                 it is the escaped form of class `a`, which admits none"
            ]
        );
        assert_eq!(
            said("class a 2 to 4 {}"),
            ["line 1, column 7: class `a` admits no text at all: \
              it wants at least 2 characters, and it has no range"]
        );
        assert_eq!(
            said("class a 40 to 4 { 'a'-'z' }"),
            ["line 1, column 7: class `a` admits no text at all: \
              it wants at least 40 characters, and at most 4"]
        );
    }

    #[test]
    fn a_class_that_admits_only_the_empty_text() {
        assert_eq!(
            said("class a 0 to 0 { 'a'-'z' } class b = escaped a"),
            ["line 1, column 7: class `a` admits only the empty text: \
              it has ranges, but takes at most 0 characters"]
        );
        assert_eq!(
            said("class a 0 to 4 { U+FFFE-U+FFFF }"),
            ["line 1, column 7: class `a` admits only the empty text: \
              it takes up to 4 characters, but its ranges hold none that XML 1.0 admits"]
        );
        assert_eq!(
            said("class a 0 to 1 {}"),
            ["line 1, column 7: class `a` admits only the empty text: \
              it takes up to 1 character, but it has no range"]
        );
        assert_eq!(said("class a 0 to 0 {}"), NONE);
    }

    #[test]
    fn a_range_that_admits_no_character() {
        assert_eq!(
            said("class a 1 to 4 { U+0000-U+0008 'a'-'z' U+000B U+D800-U+DFFF 'z'-'a' }"),
            [
                "line 1, column 18: the range U+0000-U+0008 of class `a` admits no character: \
                 it has none that XML 1.0 admits",
                "line 1, column 40: the range U+000B of class `a` admits no character: \
                 it has none that XML 1.0 admits",
                "line 1, column 47: the range U+D800-U+DFFF of class `a` admits no character: \
                 it has none that XML 1.0 admits",
                "line 1, column 61: the range U+007A-U+0061 of class `a` admits no character: \
                 its first is above its last",
            ]
        );
        assert_eq!(
            said("class a 9 to 4 { 'a' U+0000 }").len(),
            2,
            "the counts, and the range"
        );
    }

    #[test]
    fn a_range_with_some_characters_is_meant() {
        assert_eq!(
            said(
                "class a 0 to 4 { U+0000-U+0009 U+D7FF-U+E000 U+FFFD-U+FFFF } class b = escaped a"
            ),
            NONE
        );
    }
}
