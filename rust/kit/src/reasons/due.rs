//! What the declared type asks for at a record of the value, for a person who wants to mend it.
//!
//! The streams that are read have a sound layout here: types are judged only after it.

use crate::assembly::path::DataPath;
use crate::reasons::characters::{characters_due, lexeme_rule, text_found};
use crate::reasons::classes::{classes, Class};
use crate::reasons::names::Names;
use crate::reasons::paper::{CASE, VALUE};
use crate::reasons::types::{Shape, Types};
use crate::reasons::values::down_to;
use crate::streams::record::{Record, RECORD};
use crate::words::{bare, counted, listed, named};

/// The rule that fails at the record `place` of the value, and what is due there, a line for each part of
/// it.
pub fn due(
    grammar: &[Record],
    templates: &[Record],
    value: &[Record],
    names: &Names,
    place: usize,
) -> Option<(&'static str, Vec<String>)> {
    let types = Types::of(templates);
    let declared = declared(templates, &types)?;
    let (number, path) = along(&types, names, value, declared, place)?;
    let here = *value.get(place)?;
    let text = match here.kind() {
        1 => text_bytes(value, place, usize::from(here.b())),
        _ => None,
    };
    let mut said = vec![path];
    let shape = types.shape(number)?;
    let Shape::Text(class) = shape else {
        let (rule, none) = match shape {
            Shape::Variant(_) if here.kind() == 5 => (CASE, ", and there is no such case"),
            Shape::Variant(_) => (CASE, ""),
            _ => (VALUE, ""),
        };
        said.extend([kind_due(shape, names, number), standing(here) + none]);
        return Some((rule, said));
    };
    said.extend(text_due(grammar, names, class, text.as_deref()));
    let Some(text) = text else {
        said.push(standing(here));
        return Some((VALUE, said));
    };
    Some((lexeme_rule(&text), said))
}

/// What a type asks for that is no text.
fn kind_due(shape: Shape, names: &Names, number: usize) -> String {
    let own = names.type_of(number);
    match shape {
        Shape::List(item) => format!("{own} is due here: a list of {}", names.type_of(item)),
        Shape::Record(fields) => format!(
            "{own} is due here: a record of {}{}",
            counted(fields, "field", "fields"),
            fields_named(names, number, fields)
        ),
        Shape::Variant(cases) => format!(
            "{own} is due here: a variant of {}{}",
            counted(cases, "case", "cases"),
            cases_named(names, number, cases)
        ),
        _ => format!("{own} is due here: yes or no"),
    }
}

/// What stands at a value's head.
fn standing(head: Record) -> String {
    let count = usize::from(head.d());
    let what = match (head.kind(), head.a()) {
        (1, _) => "a text".to_string(),
        (2, 0) => "no".to_string(),
        (2, _) => "yes".to_string(),
        (3, _) => format!("a list of {}", counted(count, "item", "items")),
        (5, case) => format!("case {case}"),
        _ => format!("a record of {}", counted(count, "field", "fields")),
    };
    format!("{what} stands here")
}

/// The declared type: that of template 0's one parameter.
fn declared(templates: &[Record], types: &Types<'_>) -> Option<usize> {
    let parameter = templates.get(types.end + 1)?;
    Some(usize::from(parameter.b()))
}

/// The type that is due at a place, and the path to it from the whole value downwards: fields and cases by
/// name where they have one, and items by their numbers from 0.
fn along(
    types: &Types<'_>,
    names: &Names,
    value: &[Record],
    declared: usize,
    place: usize,
) -> Option<(usize, String)> {
    let (mut number, mut path, mut at) = (declared, DataPath::default(), 0);
    for (child, below) in down_to(value, place)? {
        number = match types.shape(number)? {
            Shape::List(item) => {
                path.item(child);
                item
            }
            Shape::Variant(_) => {
                let case = usize::from(value.get(at)?.a());
                match names.fields.get(number).and_then(|own| own.get(case)) {
                    Some(name) => path.field(name),
                    None => path.number(case),
                };
                types.case(number, case)?
            }
            _ => {
                match names.fields.get(number).and_then(|own| own.get(child)) {
                    Some(name) => path.field(name),
                    None => path.number(child),
                };
                types.field(number, child)?
            }
        };
        at = below;
    }
    let said = match place {
        0 => "this is the whole value".to_string(),
        _ => format!("at {path}"),
    };
    Some((number, said))
}

/// The names of a record's fields, where they are known.
fn fields_named(names: &Names, number: usize, fields: usize) -> String {
    match names.fields.get(number).is_some_and(|own| !own.is_empty()) {
        true => {
            let own = (0..fields).map(|field| bare(&names.field(number, field)));
            format!(": {}", listed(&own.collect::<Vec<_>>()))
        }
        false => String::new(),
    }
}

/// The cases of a variant, each with its number, and with its name where that is known: a value has only the
/// number.
fn cases_named(names: &Names, number: usize, cases: usize) -> String {
    let own = names.fields.get(number).map_or(&[][..], Vec::as_slice);
    let called = |case: usize| match own.get(case) {
        Some(name) => format!("{case} {}", named(name)),
        None => case.to_string(),
    };
    format!(": {}", listed(&(0..cases).map(called).collect::<Vec<_>>()))
}

fn text_due(grammar: &[Record], names: &Names, class: u16, bytes: Option<&[u8]>) -> Vec<String> {
    let Some(&Class::Plain { head, ranges }) = classes(grammar).get(usize::from(class)) else {
        return Vec::new();
    };
    text_lines(&names.class(class), head, ranges, bytes)
}

/// What a class asks of a text, and what stands there if it is a text.
pub fn text_lines(
    class: &str,
    head: Record,
    ranges: &[Record],
    bytes: Option<&[u8]>,
) -> Vec<String> {
    let due = characters_due(head, ranges);
    let mut found = vec![format!("a text of {class} is due here: {due}")];
    found.extend(bytes.map(|bytes| text_found(bytes, head, ranges)));
    found
}

/// The text behind a head.
pub fn text_bytes(records: &[Record], place: usize, length: usize) -> Option<Vec<u8>> {
    let units = records.get(place + 1..place + 1 + length.div_ceil(RECORD))?;
    Some(units.iter().flat_map(|unit| unit.0).take(length).collect())
}

#[cfg(test)]
mod tests {
    use crate::reasons::explain::{explained_by_name, explained_with, remarks_of, words};
    use crate::reasons::names::Names;

    const SMALL: &str = r#"class c 1 to 4 { 'a'-'z' U+0370-U+03FF } production p of n =
        type t = text c type f = yesno type l = list t type e = record { word: t }
        type r = record { done: f, words: l, last: e } template a (x: r) of n = build p
        value { done: yes words: ["ab" "cd"] last: { word: "ef" } }"#;

    /// What `explain` adds for a value that is not of its type.
    fn said(from: &str, to: &str) -> Vec<String> {
        remarks_of(&explained_with(SMALL, from, to), 8)
    }

    const CLASS: &str =
        "a text of class 0 is due here: 1 to 4 characters of U+0061-U+007A U+0370-U+03FF";

    #[test]
    fn a_text_that_is_no_lexeme() {
        assert_eq!(
            said("\"cd\"", "\"αβγδε\""),
            ["at `1[1]`", CLASS, "this text has 5 characters, 1 too many"]
        );
        assert_eq!(
            said("\"ef\"", "\"\""),
            ["at `2.0`", CLASS, "this text has 0 characters, 1 too few"]
        );
        assert_eq!(
            said("\"cd\"", "\"cD\"")[2],
            "this text has 2 characters, and number 2, U+0044 ('D'), is in no range"
        );
        assert_eq!(
            said("\"cd\"", "\"\\xC0\\x80\"")[2],
            "this text is no well-formed UTF-8"
        );
    }

    #[test]
    fn a_value_of_another_kind() {
        assert_eq!(
            said("\"cd\"", "yes"),
            ["at `1[1]`", CLASS, "yes stands here"]
        );
        assert_eq!(
            said("done: yes", "done: []"),
            [
                "at `0`",
                "type 1 is due here: yes or no",
                "a list of 0 items stands here"
            ]
        );
        assert_eq!(
            said("[\"ab\" \"cd\"]", "no"),
            [
                "at `1`",
                "type 2 is due here: a list of type 0",
                "no stands here"
            ]
        );
        assert_eq!(
            said("{ word: \"ef\" }", "{}"),
            [
                "at `2`",
                "type 3 is due here: a record of 1 field",
                "a record of 0 fields stands here"
            ]
        );
        assert_eq!(
            said("value {", "value \"\" # "),
            [
                "this is the whole value",
                "type 4 is due here: a record of 3 fields",
                "a text stands here"
            ]
        );
    }

    /// What is said with names.
    fn said_by_name(from: &str, to: &str) -> Vec<String> {
        let names = Names {
            classes: words("word"),
            types: words("word flag words entry page"),
            fields: ["", "", "", "word", "done words last"].map(words).to_vec(),
            ..Names::default()
        };
        remarks_of(&explained_by_name(SMALL, from, to, &names), 8)
    }

    #[test]
    fn what_is_due_by_name() {
        assert_eq!(
            said_by_name("\"cd\"", "\"\""),
            [
                "at `words[1]`",
                "a text of class `word` is due here: 1 to 4 characters of U+0061-U+007A U+0370-U+03FF",
                "this text has 0 characters, 1 too few"
            ]
        );
        assert_eq!(said_by_name("\"ef\"", "no")[0], "at `last.word`");
        assert_eq!(
            said_by_name("[\"ab\" \"cd\"]", "no")[1],
            "type `words` is due here: a list of type `word`"
        );
        assert_eq!(
            said_by_name("value {", "value \"\" # ")[1],
            "type `page` is due here: a record of 3 fields: `done`, `words`, `last`"
        );
    }

    #[test]
    fn items_of_the_whole_value_and_long_paths() {
        let deep = r#"class c 1 to 4 { 'a'-'z' } production p of n = type t = list t
            template a (x: t) of n = build p value VALUE"#;
        let said = |value: &str| {
            let text = crate::reasons::explain::explained_with(deep, "VALUE", value);
            remarks_of(&text, 8)[0].clone()
        };
        assert_eq!(said("[[] [[] [] yes]]"), "at `[1][2]`");
        let (open, close) = ("[".repeat(150), "]".repeat(150));
        let cut = format!("at `{} ..`", &"[0]".repeat(150)[..200]);
        assert_eq!(said(&format!("{open}yes{close}")), cut);
    }
}
