//! What is wrong with the counts or the ranges of a class (refusal 6), for a person who wants to mend it.
//!
//! Layouts are sound here.

use crate::reasons::names::Names;
use crate::streams::record::Record;

/// The highest code point.
const HIGHEST: u32 = 0x10_FFFF;

/// What is wrong with a class or a range at a record of the grammar.
pub fn bounds(grammar: &[Record], names: &Names, record: usize) -> Option<String> {
    let head = *grammar.get(record)?;
    let class = names.class(class_of(grammar, record)?);
    if head.kind() == 1 {
        let (least, most) = (head.b(), head.c());
        return (least > most).then(|| format!("{class} has least {least} above most {most}"));
    }
    let (lowest, highest) = (head.point(1), head.point(4));
    let range = format!("the range U+{lowest:04X}-U+{highest:04X} of {class}");
    if lowest > highest {
        return Some(format!("{range} has its lowest above its highest"));
    }
    (highest > HIGHEST).then(|| format!("{range} passes U+10FFFF"))
}

/// The number of the class whose head or range a record is.
fn class_of(grammar: &[Record], record: usize) -> Option<u16> {
    let before = grammar.get(..=record)?;
    let head = before.iter().rfind(|head| head.kind() == 1)?;
    Some(u16::from(head.a()))
}

#[cfg(test)]
mod tests {
    use crate::reasons::explain::{explained_by_name, explained_with, remarks_of, words};
    use crate::reasons::names::Names;

    const SMALL: &str = "class a 0 to 1 { 'a' } class c 1 to 4 { 'a'-'z' 'A' } class x = escaped c
        production p of n = type t = yesno template a (x: t) of n = build p value yes";

    fn said(from: &str, to: &str) -> Vec<String> {
        remarks_of(&explained_with(SMALL, from, to), 6)
    }

    #[test]
    fn counts_and_ranges() {
        assert_eq!(
            said("1 to 4", "5 to 4"),
            ["class 1 has least 5 above most 4"]
        );
        assert_eq!(
            said("'a'-'z'", "'z'-'a'"),
            ["the range U+007A-U+0061 of class 1 has its lowest above its highest"]
        );
        assert_eq!(
            said("'A'", "'A'-U+110000"),
            ["the range U+0041-U+110000 of class 1 passes U+10FFFF"]
        );
    }

    #[test]
    fn classes_by_name() {
        let names = Names {
            classes: words("flag title"),
            ..Names::default()
        };
        let text = explained_by_name(SMALL, "1 to 4", "2 to 1", &names);
        assert_eq!(
            remarks_of(&text, 6),
            ["class `title` has least 2 above most 1"]
        );
    }
}
