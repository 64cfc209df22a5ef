//! The map beside the streams: where each record of grammar and templates comes from, and its names.
//!
//! It is a JSON file that holds the checks of the blocks that it was made with. Each check starts from
//! the one before it, so a map whose checks are those of a sound stream is that stream's map.

use crate::assembly::assemble::{Assembled, Made};
use crate::assembly::sheet::{Origin, What};
use crate::json::{self, quoted, Form, Json};
use crate::mistake::{Mistake, Position};
use crate::reasons::names::Names;
use crate::streams::checks::checks;
use crate::streams::record::{Found, Kind};

/// The name of the map's file, beside the streams.
pub const FILE: &str = "map.json";

/// The map of a grammar and a template stream.
#[derive(Clone, Debug, PartialEq, Eq)]
pub struct Map {
    /// The file name of the description.
    pub description: String,
    /// The grammar's part.
    pub grammar: Part,
    /// The templates' part.
    pub templates: Part,
}

/// The map of one stream.
#[derive(Clone, Debug, PartialEq, Eq)]
pub struct Part {
    /// The checks of its blocks.
    pub checks: Vec<u32>,
    /// Where each record comes from; the zero records at the end have none.
    pub origins: Vec<Origin>,
}

impl Map {
    /// The map of a description that was assembled.
    pub fn of(description: &str, set: &Assembled) -> Self {
        Self {
            description: description.to_string(),
            grammar: Part::of(&set.grammar),
            templates: Part::of(&set.templates),
        }
    }

    /// The part of a stream; a value has none.
    pub fn part(&self, kind: Kind) -> Option<&Part> {
        match kind {
            Kind::Grammar => Some(&self.grammar),
            Kind::Templates => Some(&self.templates),
            Kind::Value => None,
        }
    }

    /// Whether it is the map of a stream.
    pub fn fits(&self, kind: Kind, stream: &[u8]) -> bool {
        let sound = |part: &&Part| {
            let found = Found::read(stream, Some(kind));
            let tail = found.records.get(part.origins.len()..);
            found.damaged() == 0 && tail.is_some_and(|tail| tail.iter().all(|it| it.is_zero()))
        };
        self.part(kind)
            .filter(|part| part.checks == checks(stream))
            .filter(sound)
            .is_some()
    }

    /// The map as its file holds it, a line for each record.
    pub fn written(&self) -> String {
        format!(
            "{{\n\"map\": 1,\n\"description\": {},\n\"grammar\": {},\n\"templates\": {}\n}}\n",
            quoted(&self.description),
            self.grammar.written(),
            self.templates.written()
        )
    }

    /// Reads a map from its file.
    ///
    /// # Errors
    /// It is no JSON, or no map.
    pub fn read(bytes: &[u8]) -> Result<Self, Mistake> {
        let json = json::parse(bytes)?;
        if !matches!(&member(&json, "map")?.form, Form::Number(number) if number == "1") {
            return Err(Mistake::new(json.at, "this is no map of version 1"));
        }
        Ok(Self {
            description: text(member(&json, "description")?)?,
            grammar: Part::read(member(&json, "grammar")?)?,
            templates: Part::read(member(&json, "templates")?)?,
        })
    }
}

impl Part {
    fn of(made: &Made) -> Self {
        Self {
            checks: checks(&made.blocks),
            origins: made.sheet.origins.clone(),
        }
    }

    fn written(&self) -> String {
        let checks: Vec<String> = self
            .checks
            .iter()
            .map(|it| format!("\"{it:08x}\""))
            .collect();
        let lines: Vec<String> = self.origins.iter().map(line).collect();
        format!(
            "{{\n \"checks\": [{}],\n \"records\": [\n{}\n ]\n}}",
            checks.join(", "),
            lines.join(",\n")
        )
    }

    fn read(json: &Json) -> Result<Self, Mistake> {
        let checks = items(member(json, "checks")?)?.iter().map(check);
        let origins = items(member(json, "records")?)?.iter().map(origin);
        Ok(Self {
            checks: checks.collect::<Result<_, _>>()?,
            origins: origins.collect::<Result<_, _>>()?,
        })
    }
}

/// What a map tells of a set that it fits.
#[derive(Debug, Default)]
pub struct Guide {
    /// The names of the set.
    pub names: Names,
    /// The file name of the description.
    pub description: String,
    places: [Vec<Position>; 2],
}

impl Guide {
    /// What a map tells.
    pub fn of(map: &Map) -> Self {
        let places = |part: &Part| part.origins.iter().map(|origin| origin.at).collect();
        Self {
            names: Names::of(&map.grammar.origins, &map.templates.origins),
            description: map.description.clone(),
            places: [places(&map.grammar), places(&map.templates)],
        }
    }

    /// Where a record comes from, if that is known.
    pub fn place(&self, kind: Kind, record: usize) -> Option<Position> {
        let places = match kind {
            Kind::Grammar => &self.places[0],
            Kind::Templates => &self.places[1],
            Kind::Value => return None,
        };
        places.get(record).copied()
    }
}

/// The line of a record.
fn line(origin: &Origin) -> String {
    let Position { line, column } = origin.at;
    let names: String = origin
        .names
        .iter()
        .map(|(what, name)| format!(", \"{what}\": {}", quoted(name)))
        .collect();
    format!("  {{\"line\": {line}, \"column\": {column}{names}}}")
}

fn origin(json: &Json) -> Result<Origin, Mistake> {
    let at = Position {
        line: number(member(json, "line")?)?,
        column: number(member(json, "column")?)?,
    };
    let mut names = Vec::new();
    if let Form::Object(members) = &json.form {
        for (key, value) in members {
            let what = What::ALL.into_iter().find(|it| it.to_string() == key.word);
            if let Some(what) = what {
                names.push((what, text(value)?));
            }
        }
    }
    Ok(Origin { at, names })
}

fn check(json: &Json) -> Result<u32, Mistake> {
    let digits = text(json)?;
    u32::from_str_radix(&digits, 16)
        .map_err(|_| Mistake::new(json.at, "a check has eight hexadecimal digits"))
}

fn member<'a>(json: &'a Json, word: &str) -> Result<&'a Json, Mistake> {
    let members = match &json.form {
        Form::Object(members) => members.as_slice(),
        _ => &[],
    };
    let found = members.iter().find(|(key, _)| key.word == word);
    found
        .map(|(_, value)| value)
        .ok_or_else(|| Mistake::new(json.at, format!("this has no `{word}`")))
}

fn items(json: &Json) -> Result<&[Json], Mistake> {
    match &json.form {
        Form::List(items) => Ok(items),
        _ => Err(Mistake::new(json.at, "an array is expected here")),
    }
}

fn text(json: &Json) -> Result<String, Mistake> {
    match &json.form {
        Form::Text(text) => Ok(text.clone()),
        _ => Err(Mistake::new(json.at, "a text is expected here")),
    }
}

/// A line or a column: a whole number from 1 on.
fn number(json: &Json) -> Result<usize, Mistake> {
    let number = match &json.form {
        Form::Number(digits) => digits.parse().ok().filter(|&number| number > 0),
        _ => None,
    };
    number.ok_or_else(|| Mistake::new(json.at, "a number from 1 on is expected here"))
}

#[cfg(test)]
mod tests {
    use super::*;
    use crate::language::parser::parse;
    use crate::mistake::end_of;

    const SMALL: &str = r#"class c 1 to 4 { 'a' }
production p of n = "[" c m* "]"
production q of m =
type t = text c type r = record { x: t }
template a (v: r) of n = build p (place v.x sequence (for i in v do build q))"#;

    fn set() -> Assembled {
        let tree = parse(SMALL).expect("a tree");
        Assembled::of(&tree, end_of(SMALL)).expect("streams")
    }

    #[test]
    fn a_map_is_read_as_it_was_written() {
        let map = Map::of("feed.txt", &set());
        assert_eq!(Map::read(map.written().as_bytes()), Ok(map));
    }

    #[test]
    fn each_record_has_its_line() {
        let written = Map::of("feed.txt", &set()).written();
        let (head, _) = written.split_once("\"records\": [\n").expect("records");
        assert!(
            head.starts_with("{\n\"map\": 1,\n\"description\": \"feed.txt\",\n\"grammar\": {\n")
        );
        for line in [
            r#"  {"line": 1, "column": 7, "class": "c"},"#,
            r#"  {"line": 2, "column": 12, "production": "p", "nonterminal": "n"},"#,
            r#"  {"line": 4, "column": 35, "field": "x"},"#,
            r#"  {"line": 5, "column": 13, "parameter": "v"},"#,
            r#"  {"line": 5, "column": 41, "path": "v.x"},"#,
            r#"  {"line": 5, "column": 55, "loop variable": "i"},"#,
        ] {
            assert!(written.lines().any(|it| it == line), "{line}\n{written}");
        }
    }

    #[test]
    fn a_map_fits_its_own_streams() {
        let set = set();
        let map = Map::of("feed.txt", &set);
        let (mut grammar, templates) = (set.grammar.blocks, set.templates.blocks);
        assert!(map.fits(Kind::Grammar, &grammar));
        assert!(map.fits(Kind::Templates, &templates));
        assert!(!map.fits(Kind::Grammar, &templates));
        assert!(!map.fits(Kind::Value, &grammar));
        let mut cut = map.clone();
        cut.grammar.origins.pop();
        assert!(!cut.fits(Kind::Grammar, &grammar));
        grammar[20] ^= 1;
        assert!(!map.fits(Kind::Grammar, &grammar));
    }

    #[test]
    fn what_is_no_map_is_refused() {
        let said = |text: &str| Map::read(text.as_bytes()).expect_err("no map").message;
        assert_eq!(said("[]"), "this has no `map`");
        assert_eq!(said("{\"map\": 2}"), "this is no map of version 1");
        assert_eq!(said("{\"map\": 1}"), "this has no `description`");
        let part = "{\"checks\": [\"xy\"], \"records\": []}";
        let map = format!(
            "{{\"map\": 1, \"description\": \"f\", \"grammar\": {part}, \"templates\": {part}}}"
        );
        assert_eq!(said(&map), "a check has eight hexadecimal digits");
    }
}
