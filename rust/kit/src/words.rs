//! How texts and counts are written for a person.

use std::path::Path;

/// A count and what it counts, in the singular or the plural.
pub fn counted(count: usize, one: &str, many: &str) -> String {
    format!("{count} {}", if count == 1 { one } else { many })
}

/// A text in quotes; what is no UTF-8 and what can't be seen is escaped.
pub fn quoted(text: &[u8]) -> String {
    let mut quote = String::from("\"");
    for chunk in text.utf8_chunks() {
        quote.extend(chunk.valid().chars().flat_map(escaped));
        for byte in chunk.invalid() {
            quote.push_str(&format!("\\x{byte:02X}"));
        }
    }
    quote.push('"');
    quote
}

fn escaped(character: char) -> Vec<char> {
    match character {
        '\'' => vec!['\''],
        // As a description writes it, which knows no `\0`.
        '\0' => character.escape_unicode().collect(),
        other => other.escape_debug().collect(),
    }
}

/// A character of a line as it is shown: one that can't be seen, or that would move what follows it, as
/// an escape.
pub fn visible(character: char) -> String {
    match character {
        '\t' => " ".to_string(),
        '"' | '\'' | '\\' => character.to_string(),
        other => escaped(other).into_iter().collect(),
    }
}

/// A piece of a file in backticks, cut at so many characters, with a mark if it was longer; what can't
/// be seen is escaped.
pub fn shown(piece: &str, most: usize) -> String {
    let mut shown = String::from("`");
    let mut room = most;
    for character in piece.chars() {
        let escaped = match character {
            '"' | '\\' => vec![character],
            other => escaped(other),
        };
        if escaped.len() > room {
            shown.push_str(" ..");
            break;
        }
        room -= escaped.len();
        shown.extend(escaped);
    }
    shown.push('`');
    shown
}

/// The name of a field, in quotes if it is no plain name.
pub fn key(word: &str) -> String {
    let begins = |c: char| c.is_alphabetic() || c == '_';
    let goes_on = |c: char| c.is_alphanumeric() || c == '_';
    match word.starts_with(begins) && word.chars().all(goes_on) {
        true => word.to_string(),
        false => quoted(word.as_bytes()),
    }
}

/// A name as a message shows it.
pub fn named(word: &str) -> String {
    shown(word, WIDEST_WORD)
}

/// The most characters of a name that a message shows.
const WIDEST_WORD: usize = 60;

/// A line of so many characters is shown whole.
const WHOLE: usize = 120;

/// How many characters of a longer line are shown before and after a place in it.
const BEFORE: usize = 60;
const AFTER: usize = 40;

/// A line as it is shown, or the part of a long one around its character number `place` (from 0), and
/// how many columns of a screen what is shown takes before that character.
pub fn line_around(line: &str, place: usize) -> (String, usize) {
    let line = line.strip_suffix('\r').unwrap_or(line);
    let (first, after) = match line.chars().nth(WHOLE) {
        None => (0, WHOLE),
        Some(_) => (place.saturating_sub(BEFORE), AFTER),
    };
    let mut shown = String::from(if first > 0 { ".. " } else { "" });
    let mut rest = line.chars().skip(first);
    let before: String = rest.by_ref().take(place - first).map(visible).collect();
    shown.push_str(&before);
    let width = shown.chars().map(columns).sum();
    shown.extend(rest.by_ref().take(after).map(visible));
    if rest.next().is_some() {
        shown.push_str(" ..");
    }
    (shown, width)
}

/// The columns of a screen that a character takes which can be seen: two for emoji and for what East
/// Asian scripts write, so that a mark stands below what it marks.
fn columns(character: char) -> usize {
    let is_wide = matches!(
        character,
        '\u{1100}'..='\u{115F}'
            | '\u{2E80}'..='\u{303E}'
            | '\u{3041}'..='\u{A4CF}'
            | '\u{AC00}'..='\u{D7A3}'
            | '\u{F900}'..='\u{FAFF}'
            | '\u{FE30}'..='\u{FE6F}'
            | '\u{FF00}'..='\u{FF60}'
            | '\u{FFE0}'..='\u{FFE6}'
            | '\u{1F300}'..='\u{1F64F}'
            | '\u{1F680}'..='\u{1F6FF}'
            | '\u{1F900}'..='\u{1F9FF}'
            | '\u{20000}'..='\u{3FFFD}'
    );
    1 + usize::from(is_wide)
}

/// The most characters of a file's name that are shown: as many as a file's path has at most.
const WIDEST_PATH: usize = 4096;

/// The name of a file as a message shows it: what can't be seen in it is escaped.
pub fn file_called(file: &Path) -> String {
    let name = file.to_string_lossy();
    cut(&name, WIDEST_PATH).chars().map(visible).collect()
}

/// A line cut at so many characters, with a mark if it was longer.
pub fn cut(line: &str, most: usize) -> String {
    match line.char_indices().nth(most) {
        Some((end, _)) => format!("{} ..", &line[..end]),
        None => line.to_string(),
    }
}

/// How many of a row are listed.
const LISTED: usize = 8;

/// A row in words; of a long one only the first are named.
pub fn listed(row: &[String]) -> String {
    listed_by(row, ", ")
}

/// The same, with another text between two of them.
pub fn listed_by(row: &[String], between: &str) -> String {
    let named = row[..row.len().min(LISTED)].join(between);
    match row.len().saturating_sub(LISTED) {
        0 => named,
        more => format!("{named} and {more} more"),
    }
}

/// The name or number alone of what is called ``class `title` `` or `class 3`.
pub fn bare(called: &str) -> String {
    called
        .split_once(' ')
        .map_or(called, |(_, name)| name)
        .to_string()
}

#[cfg(test)]
mod tests {
    use super::*;

    #[test]
    fn texts_in_quotes() {
        assert_eq!(quoted("αβ'\"\n".as_bytes()), "\"αβ'\\\"\\n\"");
        assert_eq!(quoted(b"a\xC0\x80b"), "\"a\\xC0\\x80b\"");
        assert_eq!(quoted(b"\0\x0B"), "\"\\u{0}\\u{b}\"");
    }

    #[test]
    fn long_lines_are_cut() {
        assert_eq!(cut("αβγ", 3), "αβγ");
        assert_eq!(cut("αβγδ", 3), "αβγ ..");
    }

    #[test]
    fn rows_are_bounded() {
        let row: Vec<String> = (0..20).map(|number| number.to_string()).collect();
        assert_eq!(listed(&row[..2]), "0, 1");
        assert_eq!(listed(&row[..8]), "0, 1, 2, 3, 4, 5, 6, 7");
        assert_eq!(listed(&row), "0, 1, 2, 3, 4, 5, 6, 7 and 12 more");
    }

    #[test]
    fn names_alone() {
        assert_eq!(bare("class `title`"), "`title`");
        assert_eq!(bare("class 3"), "3");
    }

    #[test]
    fn counts() {
        assert_eq!(counted(1, "child", "children"), "1 child");
        assert_eq!(counted(0, "child", "children"), "0 children");
    }

    #[test]
    fn words_of_a_message() {
        assert_eq!(named("title"), "`title`");
        assert_eq!(named("a\u{7}'"), "`a\\u{7}'`");
        assert_eq!(named(&"a".repeat(70)), format!("`{} ..`", "a".repeat(60)));
    }

    #[test]
    fn pieces_of_a_file() {
        assert_eq!(shown("α\"\\'", 4), "`α\"\\'`");
        assert_eq!(shown("αβγδ", 3), "`αβγ ..`");
        assert_eq!(shown("\0\n\u{FEFF}", 40), "`\\u{0}\\n\\u{feff}`");
        assert_eq!(shown("a\0b", 5), "`a ..`");
    }

    #[test]
    fn a_line_around_a_place() {
        assert_eq!(line_around("ab\u{1}cd", 3), ("ab\\u{1}cd".to_string(), 7));
        assert_eq!(line_around("ab", 2), ("ab".to_string(), 2));
        assert_eq!(line_around("ab", 9), ("ab".to_string(), 2));
        assert_eq!(line_around("😀漢a", 2), ("😀漢a".to_string(), 4));
    }

    #[test]
    fn a_line_is_cut_only_if_it_is_long() {
        let whole = "x".repeat(120);
        assert_eq!(line_around(&whole, 0), (whole.clone(), 0));
        assert_eq!(line_around(&whole, 120), (whole.clone(), 120));
        let long = format!("{whole}x");
        assert_eq!(line_around(&long, 0), (format!("{} ..", &whole[..40]), 0));
        let end = format!(".. {}", &whole[..60]);
        assert_eq!(line_around(&long, 121), (end, 63));
    }

    #[test]
    fn names_of_files() {
        assert_eq!(file_called(Path::new("a b/α.txt")), "a b/α.txt");
        assert_eq!(file_called(Path::new("a\u{1b}[2J\n")), "a\\u{1b}[2J\\n");
    }
}
