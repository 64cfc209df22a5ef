//! Rows of names with their numbers.

use crate::language::description::{Description, Name, Production, TypeForm};
use crate::mistake::{Mistake, Position};
use crate::streams::record::STREAM_RECORDS;
use crate::words::{listed, named};
use std::collections::HashMap;

/// The numbers of a row of names, by the order of the description.
pub type Row<'a> = HashMap<&'a str, u16>;

/// All names of a description, and what they stand for.
pub struct Rows<'a> {
    /// The classes.
    pub classes: Row<'a>,
    /// The nonterminals, by their first productions.
    pub nonterminals: Row<'a>,
    /// The productions.
    pub productions: Row<'a>,
    /// The types.
    pub types: Row<'a>,
    /// The templates.
    pub templates: Row<'a>,
    /// The types by their numbers, with their names.
    pub forms: Vec<(&'a str, &'a TypeForm)>,
}

impl<'a> Rows<'a> {
    /// The rows of a description; names that stand twice are mistakes.
    pub fn of(tree: &'a Description, mistakes: &mut Vec<Mistake>) -> Self {
        let classes = row(
            names(&tree.classes, |it| &it.name),
            "a class",
            256,
            mistakes,
        );
        let productions = names(&tree.productions, |it| &it.name);
        let types = names(&tree.types, |it| &it.name);
        let templates = names(&tree.templates, |it| &it.name);
        Self {
            nonterminals: nonterminals(&tree.productions, &classes, mistakes),
            classes,
            productions: row(productions, "a production", STREAM_RECORDS, mistakes),
            types: row(types, "a type", STREAM_RECORDS, mistakes),
            templates: row(templates, "a template", STREAM_RECORDS, mistakes),
            forms: tree
                .types
                .iter()
                .map(|it| (it.name.word.as_str(), &it.form))
                .collect(),
        }
    }

    /// The number of the type with a name, if there is one.
    pub fn type_named(&self, name: &Name) -> Option<u16> {
        self.types.get(name.word.as_str()).copied()
    }

    /// What the type with a number is.
    pub fn form(&self, number: Option<u16>) -> Option<&'a TypeForm> {
        self.forms.get(usize::from(number?)).map(|(_, form)| *form)
    }

    /// The declared type of the value: that of template 0's one parameter.
    pub fn declared(&self, tree: &Description) -> Option<u16> {
        match tree.templates.first()?.parameters.as_slice() {
            [only] => self.type_named(&only.of),
            _ => None,
        }
    }
}

fn names<'a, T>(
    things: &'a [T],
    name: impl Fn(&'a T) -> &'a Name,
) -> impl Iterator<Item = &'a Name> {
    things.iter().map(name)
}

/// The numbers of names in their order; all differ, and there are at most so many.
pub fn row<'a>(
    names: impl Iterator<Item = &'a Name>,
    what: &str,
    most: usize,
    mistakes: &mut Vec<Mistake>,
) -> Row<'a> {
    let mut found: HashMap<&str, (u16, Position)> = HashMap::new();
    for (number, name) in names.enumerate() {
        if let Some((_, first)) = found.get(name.word.as_str()) {
            let word = named(&name.word);
            let message = format!("{word} is {what} already, at line {}", first.line);
            mistakes.push(Mistake::new(name.at, message));
            continue;
        }
        if number == most {
            let message = format!("this is {what} past the {most} that fit");
            mistakes.push(Mistake::new(name.at, message));
        }
        let number = u16::try_from(number).unwrap_or(u16::MAX);
        found.insert(&name.word, (number, name.at));
    }
    found
        .into_iter()
        .map(|(word, (number, _))| (word, number))
        .collect()
}

/// The nonterminals in the order of their first productions. None has a class's name.
fn nonterminals<'a>(
    productions: &'a [Production],
    classes: &Row<'a>,
    mistakes: &mut Vec<Mistake>,
) -> Row<'a> {
    let mut found = Row::new();
    for Name { word, at } in productions.iter().map(|production| &production.nonterminal) {
        if classes.contains_key(word.as_str()) {
            let message = format!("{} is a class already, and no nonterminal", named(word));
            mistakes.push(Mistake::new(*at, message));
        }
        let next = u16::try_from(found.len()).unwrap_or(u16::MAX);
        found.entry(word.as_str()).or_insert(next);
    }
    found
}

/// The number that a name stands for; a name that stands for nothing is a mistake.
pub fn numbered(row: &Row<'_>, name: &Name, what: &str, mistakes: &mut Vec<Mistake>) -> u16 {
    row.get(name.word.as_str()).copied().unwrap_or_else(|| {
        mistakes.push(unknown(what, name, row.keys().copied(), mistakes.len()));
        0
    })
}

/// The mistake of a name that stands for nothing, with the name that may be meant; so many mistakes were
/// met before it.
pub fn unknown<'a>(
    what: &str,
    name: &Name,
    known: impl Iterator<Item = &'a str>,
    before: usize,
) -> Mistake {
    let message = format!("no {what} is named {}", named(&name.word));
    Mistake::new(name.at, message + &meant(&name.word, known, before))
}

/// How many mistakes are told with a near name. Not all of more are shown, and looking for names takes
/// its time where there are thousands.
const MOST_OFFERED: usize = 50;

/// A word about the known name that is nearest to a misspelt one, if one is near; so many mistakes were
/// met before.
pub fn meant<'a>(word: &str, known: impl Iterator<Item = &'a str>, before: usize) -> String {
    if before >= MOST_OFFERED {
        return String::new();
    }
    let near = known.filter_map(|other| distance(word, other).map(|far| (far, other)));
    match near.min() {
        Some((_, other)) => format!(": did you mean {}?", named(other)),
        None => String::new(),
    }
}

/// The same, or else the known names, behind a few words.
pub fn meant_or_known<'a>(
    word: &str,
    known: impl Iterator<Item = &'a str> + Clone,
    before: usize,
    are: &str,
) -> String {
    let near = meant(word, known.clone(), before);
    if !near.is_empty() || before >= MOST_OFFERED {
        return near;
    }
    let names: Vec<String> = known.map(named).collect();
    match names.is_empty() {
        true => near,
        false => format!(": {are} {}", listed(&names)),
    }
}

/// The longest word for which a near one is looked for.
const LONGEST_MISSPELT: usize = 40;

/// How many letters are to be put in, left out, replaced or exchanged with their neighbour to come from
/// one word to another, if these are few: two of five letters or more, one of a shorter word.
fn distance(word: &str, other: &str) -> Option<usize> {
    let (word, other): (Vec<char>, Vec<char>) = (word.chars().collect(), other.chars().collect());
    let most = 2.min((word.len().min(other.len()) + 1) / 3);
    if word.len() > LONGEST_MISSPELT || word.len().abs_diff(other.len()) > most {
        return None;
    }
    let first: Vec<usize> = (0..=other.len()).collect();
    let mut rows = vec![first];
    for i in 1..=word.len() {
        let mut row = vec![i];
        for j in 1..=other.len() {
            let replaced = rows[i - 1][j - 1] + usize::from(word[i - 1] != other[j - 1]);
            let shorter = row[j - 1].min(rows[i - 1][j]) + 1;
            let turned = i > 1 && j > 1 && word[i - 2..i] == [other[j - 1], other[j - 2]];
            let exchanged = if turned {
                rows[i - 2][j - 2] + 1
            } else {
                replaced
            };
            row.push(replaced.min(shorter).min(exchanged));
        }
        rows.push(row);
    }
    Some(rows[word.len()][other.len()]).filter(|&far| far <= most)
}

#[cfg(test)]
mod tests {
    use super::*;

    #[test]
    fn near_names_are_offered() {
        let known = ["title", "note", "episode"];
        let offer = |word| meant(word, known.into_iter(), 0);
        assert_eq!(offer("titel"), ": did you mean `title`?");
        assert_eq!(offer("nots"), ": did you mean `note`?");
        assert_eq!(offer("episodes"), ": did you mean `episode`?");
        assert_eq!(offer("sound"), "");
        assert_eq!(offer("date"), "");
        assert_eq!(offer("noet"), ": did you mean `note`?");
        assert_eq!(offer("x"), "");
        assert_eq!(meant("titel", known.into_iter(), MOST_OFFERED), "");
        let else_known =
            |word, before| meant_or_known(word, known.into_iter(), before, "there are");
        assert_eq!(else_known("titel", 0), ": did you mean `title`?");
        let all = ": there are `title`, `note`, `episode`";
        assert_eq!(else_known("sound", 0), all);
        assert_eq!(else_known("sound", MOST_OFFERED), "");
    }
}
