//! What is wrong with a text that somebody wrote, shown with its line, as a compiler does.

use crate::words::{file_called, line_around};
use std::fmt;
use std::path::Path;

/// A place in a text; lines and columns count from 1, columns in characters.
#[derive(Clone, Copy, Debug, PartialEq, Eq, PartialOrd, Ord)]
pub struct Position {
    /// The line.
    pub line: usize,
    /// The column.
    pub column: usize,
}

/// The place after a text's last character.
pub fn end_of(text: &str) -> Position {
    let line = text.matches('\n').count() + 1;
    let last = text.rsplit('\n').next().unwrap_or("");
    Position {
        line,
        column: last.chars().count() + 1,
    }
}

/// What is wrong, and where.
#[derive(Clone, Debug, PartialEq, Eq)]
pub struct Mistake {
    /// Where it is.
    pub at: Position,
    /// What is wrong.
    pub message: String,
    /// What more is to be said of it, a line each.
    pub remarks: Vec<String>,
}

impl Mistake {
    /// A mistake at a place.
    pub fn new(at: Position, message: impl Into<String>) -> Self {
        Self {
            at,
            message: message.into(),
            remarks: Vec::new(),
        }
    }

    /// The mistake with more to be said of it.
    pub fn with(mut self, remarks: Vec<String>) -> Self {
        self.remarks = remarks;
        self
    }
}

impl fmt::Display for Mistake {
    fn fmt(&self, f: &mut fmt::Formatter<'_>) -> fmt::Result {
        write!(
            f,
            "line {}, column {}: {}",
            self.at.line, self.at.column, self.message
        )
    }
}

impl std::error::Error for Mistake {}

/// The most mistakes that are shown at once.
const MOST_SHOWN: usize = 20;

/// When so many mistakes are found in data, no more are looked for: each item may lack very many keys.
pub const MOST_FOUND: usize = 1000;

/// A text with the name of its file, for showing what is wrong with it.
pub struct Source<'a> {
    name: String,
    text: &'a str,
}

impl<'a> Source<'a> {
    /// A text and the name of its file.
    pub fn new(name: &str, text: &'a str) -> Self {
        let name = file_called(Path::new(name));
        Self { name, text }
    }

    /// Mistakes in the order of the text, each with its line and a mark below its column; of very many
    /// only the first.
    pub fn shown(&self, mistakes: &[Mistake]) -> String {
        let mut sorted: Vec<&Mistake> = mistakes.iter().collect();
        sorted.sort_by_key(|mistake| mistake.at);
        let (mut rest, mut line) = (self.text, 1);
        let mut text = String::new();
        for mistake in sorted.iter().take(MOST_SHOWN) {
            while line < mistake.at.line {
                rest = rest.split_once('\n').map_or("", |(_, after)| after);
                line += 1;
            }
            let here = rest.split('\n').next().unwrap_or("");
            text.push_str(&self.with_line(mistake, here));
        }
        if mistakes.len() > MOST_SHOWN {
            let more = mistakes.len() - MOST_SHOWN;
            let least = match mistakes.len() < MOST_FOUND {
                true => "",
                false => "at least ",
            };
            text.push_str(&format!("{}: and {least}{more} more\n", self.name));
        }
        text
    }

    fn with_line(&self, mistake: &Mistake, line: &str) -> String {
        let Position { line: row, column } = mistake.at;
        let (excerpt, before) = line_around(line, column - 1);
        let shown = format!("    {excerpt}");
        let mark = " ".repeat(before);
        let mut text = format!(
            "{}:{row}:{column}: {}\n{}\n    {mark}^\n",
            self.name,
            mistake.message,
            shown.trim_end()
        );
        for remark in &mistake.remarks {
            text.push_str(&format!("  = {remark}\n"));
        }
        text
    }
}

#[cfg(test)]
mod tests {
    use super::*;

    fn shown(line: usize, column: usize, text: &str) -> String {
        let mistake = Mistake::new(Position { line, column }, "no such thing");
        Source::new("f", text).shown(&[mistake])
    }

    #[test]
    fn a_mark_stands_below_the_column() {
        assert_eq!(
            shown(2, 4, "one\nαβ cd\n"),
            "f:2:4: no such thing\n    αβ cd\n       ^\n"
        );
        assert_eq!(
            shown(1, 3, "a\tb"),
            "f:1:3: no such thing\n    a b\n      ^\n"
        );
    }

    #[test]
    fn what_can_not_be_seen_is_shown_as_an_escape() {
        assert_eq!(
            shown(1, 3, "a\u{1b}[2J\r"),
            "f:1:3: no such thing\n    a\\u{1b}[2J\n           ^\n"
        );
    }

    #[test]
    fn a_long_line_is_shown_around_its_mark() {
        let long = "x".repeat(1_000_000);
        let text = shown(1, 500_000, &long);
        let lines: Vec<&str> = text.lines().collect();
        assert!(lines[1].starts_with("    .. xxx") && lines[1].ends_with("xxx .."));
        assert!(text.len() < 400, "{}", text.len());
        let mark = lines[2].find('^').expect("a mark");
        assert_eq!(&lines[1][mark..=mark], "x");
    }

    #[test]
    fn mistakes_are_shown_in_order_and_not_all_of_very_many() {
        let at = |line| Mistake::new(Position { line, column: 1 }, "wrong");
        let text = "a\n".repeat(30);
        let source = Source::new("f", &text);
        assert!(source.shown(&[at(2), at(1)]).starts_with("f:1:1: wrong\n"));
        let many: Vec<Mistake> = (1..=30).map(at).collect();
        assert!(source.shown(&many).ends_with("f: and 10 more\n"));
        let many: Vec<Mistake> = (1..=MOST_FOUND).map(at).collect();
        assert!(source.shown(&many).ends_with("f: and at least 980 more\n"));
    }

    #[test]
    fn remarks_follow() {
        let mistake = Mistake::new(Position { line: 1, column: 1 }, "wrong");
        let text = Source::new("f", "x").shown(&[mistake.with(vec!["why".to_string()])]);
        assert_eq!(text, "f:1:1: wrong\n    x\n    ^\n  = why\n");
    }
}
