//! What a class asks of a text, and which of a text's characters it doesn't take.

use crate::reasons::paper::{ADMITTED, LEXEME};
use crate::streams::record::Record;
use crate::words::{counted, listed_by, visible};

/// How many characters of which ranges a plain class has.
pub fn characters_due(head: Record, ranges: &[Record]) -> String {
    let each: Vec<String> = ranges
        .iter()
        .map(|range| format!("U+{:04X}-U+{:04X}", range.point(1), range.point(4)))
        .collect();
    let (least, most) = (head.b(), head.c());
    match each.is_empty() {
        true => format!("{least} to {most} characters, but the class has no range"),
        false => format!("{least} to {most} characters of {}", listed_by(&each, " ")),
    }
}

/// What a text has that its class may not take.
pub fn text_found(bytes: &[u8], head: Record, ranges: &[Record]) -> String {
    let Ok(text) = std::str::from_utf8(bytes) else {
        return "this text is no well-formed UTF-8".to_string();
    };
    let count = text.chars().count();
    let has = format!(
        "this text has {}",
        counted(count, "character", "characters")
    );
    let (least, most) = (usize::from(head.b()), usize::from(head.c()));
    let amount = match count {
        few if few < least => format!(", {} too few", least - few),
        many if many > most => format!(", {} too many", many - most),
        _ => String::new(),
    };
    let unfit = unfit(text, ranges).map_or_else(String::new, |unfit| format!(", and {unfit}"));
    format!("{has}{amount}{unfit}")
}

/// Whether a text is a lexeme of a plain class.
pub fn is_lexeme(bytes: &[u8], head: Record, ranges: &[Record]) -> bool {
    std::str::from_utf8(bytes).is_ok_and(|text| {
        let counts = usize::from(head.b())..=usize::from(head.c());
        counts.contains(&text.chars().count()) && unfit(text, ranges).is_none()
    })
}

/// The rule that a text breaks which is no lexeme. A character that XML 1.0 doesn't admit comes first: no
/// other ranges or counts would help.
pub fn lexeme_rule(text: &[u8]) -> &'static str {
    match has_unadmitted(text) {
        true => ADMITTED,
        false => LEXEME,
    }
}

/// Whether a text has a character that XML 1.0 doesn't admit; one that is no UTF-8 has no characters.
fn has_unadmitted(bytes: &[u8]) -> bool {
    std::str::from_utf8(bytes).is_ok_and(|text| first_without(text, is_admitted).is_some())
}

/// The first character that XML 1.0 doesn't admit, since no other ranges would help there; else the
/// first that is in no range.
fn unfit(text: &str, ranges: &[Record]) -> Option<String> {
    if let Some((number, character)) = first_without(text, is_admitted) {
        return Some(format!(
            "number {number}, U+{:04X} ({}), is one that XML 1.0 admits nowhere, whatever the ranges are",
            u32::from(character),
            name(character)
        ));
    }
    let (number, character) = first_without(text, |character| is_in(ranges, character))?;
    let point = u32::from(character);
    let seen = visible(character);
    Some(format!(
        "number {number}, U+{point:04X} ('{seen}'), is in no range"
    ))
}

/// The first character that a test doesn't pass, and its number from 1.
fn first_without(text: &str, test: impl Fn(char) -> bool) -> Option<(usize, char)> {
    (1..)
        .zip(text.chars())
        .find(|&(_, character)| !test(character))
}

fn is_in(ranges: &[Record], character: char) -> bool {
    let point = u32::from(character);
    ranges
        .iter()
        .any(|range| range.point(1) <= point && point <= range.point(4))
}

/// Whether XML 1.0 admits a character. One that it doesn't admit is in no lexeme, also where a range of
/// the class holds it.
pub fn is_admitted(character: char) -> bool {
    matches!(
        character,
        '\t' | '\n' | '\r' | ' '..='\u{D7FF}' | '\u{E000}'..='\u{FFFD}' | '\u{10000}'..
    )
}

/// What people call a character that XML 1.0 doesn't admit.
fn name(character: char) -> &'static str {
    match character {
        '\0' => "NUL",
        '\x07' => "bell",
        '\x08' => "backspace",
        '\x0B' => "vertical tab",
        '\x0C' => "form feed",
        '\x1B' => "escape",
        '\x01'..='\x1F' => "control character",
        _ => "noncharacter",
    }
}

#[cfg(test)]
mod tests {
    use super::is_admitted;
    use crate::reasons::explain::{explained_with, remarks_of};

    /// Class 0 has every character in its range; keywords and separators hold some that XML 1.0 doesn't
    /// admit.
    const SMALL: &str = r#"class any 1 to 4 { U+0000-U+10FFFF } class letters 1 to 4 { 'a'-'z' }
        class escaped_any = escaped any
        production p of n = "\u{b}" any letters escaped_any m*("\u{fffe}") production q of m = "\x00"
        type t = text any template a (v: t) of n =
          build p (literal "one" literal "two" place v sequence (build q build q))
        value "a&b""#;

    /// The lines that `explain` adds to a refusal of the description with another part, and the rule is
    /// quoted that failed.
    fn said(from: &str, to: &str, number: u8) -> Vec<String> {
        let text = explained_with(SMALL, from, to);
        let admitted = text.contains("XML 1.0 admits only U+0009, U+000A, U+000D, ");
        let counted = text.contains("A lexeme of a class is well-formed UTF-8");
        let nowhere = text.contains("is one that XML 1.0 admits nowhere");
        assert_eq!((admitted, counted), (nowhere, !nowhere), "{text}");
        remarks_of(&text, number)
    }

    /// What is said of a text of so many characters with one that XML 1.0 doesn't admit.
    fn nowhere(count: usize, which: &str) -> String {
        format!(
            "this text has {count} characters, and number {which}, \
             is one that XML 1.0 admits nowhere, whatever the ranges are"
        )
    }

    /// Where the literal of the first class stands.
    const FIRST: &str = "class 0 is asked for here, by element 2 of production 0 (child 1)";

    const ANY: &str = "1 to 4 characters of U+0000-U+10FFFF";

    #[test]
    fn keywords_separators_and_ranges_hold_any_character() {
        assert_eq!(
            explained_with(SMALL, "", ""),
            "check: accepted\nevaluate: finished, 7 steps, a text of 19 bytes\n"
        );
    }

    #[test]
    fn a_title_with_a_vertical_tab() {
        assert_eq!(
            said("a&b", r"a\u{b}b", 8),
            [
                "this is the whole value".to_string(),
                format!("a text of class 0 is due here: {ANY}"),
                nowhere(3, "2, U+000B (vertical tab)")
            ]
        );
    }

    #[test]
    fn a_literal_with_a_vertical_tab() {
        assert_eq!(
            said("one", r"one\u{b}", 7),
            [
                format!("{FIRST}: {ANY}"),
                nowhere(4, "4, U+000B (vertical tab)")
            ]
        );
    }

    #[test]
    fn a_literal_of_an_escaped_class_with_a_vertical_tab() {
        let lines = said("place v", r#"literal "&amp;\u{b}""#, 7);
        assert_eq!(
            lines[2..],
            [
                r#"it stands for "&\u{b}""#.to_string(),
                format!("due are {ANY}"),
                nowhere(2, "2, U+000B (vertical tab)")
            ]
        );
    }

    #[test]
    fn what_no_range_would_mend_is_said_first() {
        let lines = said("two", r"A\u{b}", 7);
        assert_eq!(lines[1], nowhere(2, "2, U+000B (vertical tab)"));
        assert_eq!(
            said("two", r"A\t", 7)[1],
            "this text has 2 characters, and number 1, U+0041 ('A'), is in no range"
        );
    }

    #[test]
    fn characters_by_number_and_name() {
        for (text, which) in [
            (r"\x00a", "1, U+0000 (NUL)"),
            (r"a\u{7}", "2, U+0007 (bell)"),
            (r"a\u{8}", "2, U+0008 (backspace)"),
            (r"a\u{c}", "2, U+000C (form feed)"),
            (r"a\u{1b}", "2, U+001B (escape)"),
            (r"a\u{1f}", "2, U+001F (control character)"),
            (r"α\u{fffe}", "2, U+FFFE (noncharacter)"),
        ] {
            assert_eq!(said("a&b", text, 8)[2], nowhere(2, which));
        }
    }

    #[test]
    fn a_class_without_ranges() {
        assert_eq!(
            said("1 to 4 { U+0000-U+10FFFF }", "0 to 4 { }", 7),
            [
                format!("{FIRST}: 0 to 4 characters, but the class has no range"),
                "this text has 3 characters, and number 1, U+006F ('o'), is in no range"
                    .to_string()
            ]
        );
    }

    #[test]
    fn counts_and_bytes_are_said_as_ever() {
        let lines = said("a&b", r"abcd\u{b}", 8);
        assert_eq!(
            lines[2],
            nowhere(5, "5, U+000B (vertical tab)").replace(", and", ", 1 too many, and")
        );
        assert_eq!(
            said("a&b", "", 8)[2],
            "this text has 0 characters, 1 too few"
        );
        assert_eq!(
            said("a&b", r"\u{b}\xFF", 8)[2],
            "this text is no well-formed UTF-8"
        );
    }

    /// The library's answer for a title of these characters, whose class has every one in its range.
    fn answer(characters: &[char]) -> u64 {
        let title: String = characters
            .iter()
            .map(|it| it.escape_unicode().to_string())
            .collect();
        let streams = crate::assemble(&format!(
            "class any 1 to 16000 {{ U+0000-U+10FFFF }} production p of n = type t = text any
             template a (v: t) of n = build p value \"{title}\""
        ))
        .expect("streams");
        let (mut output, mut scratch) = ([], [0; feed::SCRATCH]);
        feed::evaluate(
            &streams.grammar,
            &streams.templates,
            &streams.value,
            1,
            &mut output,
            &mut scratch,
        )
        .number
    }

    #[test]
    fn every_character_is_admitted_as_the_library_admits_it() {
        let (admitted, others): (Vec<char>, Vec<char>) =
            ('\0'..=char::MAX).partition(|&character| is_admitted(character));
        for title in admitted.chunks(16_000) {
            assert_eq!(answer(title), 0, "from {:?} on", title[0]);
        }
        for other in others {
            assert_eq!(answer(&[other]), 8, "{other:?}");
        }
    }
}
