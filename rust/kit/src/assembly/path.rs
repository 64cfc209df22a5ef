//! The path to a part of the data, as `episodes[3].title`.

use crate::words::{key, shown};
use std::fmt;

/// The longest path that is shown.
const WIDEST: usize = 200;

/// A path: fields by their names, items by their numbers from 0.
#[derive(Clone, Debug, Default, PartialEq, Eq)]
pub struct DataPath {
    written: String,
}

/// The length of a path before a step was made.
pub struct Outside(usize);

impl DataPath {
    /// Steps into a field. No more of a very long name is kept than is shown.
    pub fn field(&mut self, name: &str) -> Outside {
        let outside = Outside(self.written.len());
        if !self.written.is_empty() {
            self.written.push('.');
        }
        let name: String = name.chars().take(WIDEST + 1).collect();
        self.written.push_str(&key(&name));
        outside
    }

    /// Steps into a field that is known by its number only.
    pub fn number(&mut self, number: usize) -> Outside {
        let outside = Outside(self.written.len());
        let dot = if self.written.is_empty() { "" } else { "." };
        self.written.push_str(&format!("{dot}{number}"));
        outside
    }

    /// Steps to an item.
    pub fn item(&mut self, number: usize) -> Outside {
        let outside = Outside(self.written.len());
        self.written.push_str(&format!("[{number}]"));
        outside
    }

    /// Steps back.
    pub fn leave(&mut self, outside: Outside) {
        self.written.truncate(outside.0);
    }
}

impl fmt::Display for DataPath {
    fn fmt(&self, f: &mut fmt::Formatter<'_>) -> fmt::Result {
        match self.written.is_empty() {
            true => f.write_str("the whole data"),
            false => f.write_str(&shown(&self.written, WIDEST)),
        }
    }
}

#[cfg(test)]
mod tests {
    use super::*;

    #[test]
    fn a_path_as_it_is_shown() {
        let mut path = DataPath::default();
        assert_eq!(path.to_string(), "the whole data");
        path.field("episodes");
        let item = path.item(3);
        path.field("title");
        assert_eq!(path.to_string(), "`episodes[3].title`");
        path.leave(item);
        assert_eq!(path.to_string(), "`episodes`");
    }

    #[test]
    fn keys_that_are_no_names_are_quoted() {
        let mut path = DataPath::default();
        path.field("pub-date");
        path.field("");
        assert_eq!(path.to_string(), r#"`"pub-date".""`"#);
    }

    #[test]
    fn of_a_very_long_name_no_more_is_kept_than_is_shown() {
        let (mut path, long) = (DataPath::default(), "é".repeat(1_000_000));
        path.field(&long);
        assert!(path.written.len() < 500);
        let shown = format!("`{} ..`", "é".repeat(WIDEST));
        assert_eq!(path.to_string(), shown);
    }
}
