//! What is wrong with an escaped class, or with a literal that should be an escaped text, for a person who
//! wants to mend it.
//!
//! The layout is sound here: names and typing are judged after it.

use crate::reasons::classes::{classes, Class};
use crate::reasons::names::Names;
use crate::streams::record::Record;
use crate::words::{bare, listed};
use feed::{Refusal, Stream};

/// The five characters and their entities.
const ENTITIES: [(&str, &str); 5] = [
    ("&", "&amp;"),
    ("<", "&lt;"),
    (">", "&gt;"),
    ("\"", "&quot;"),
    ("'", "&apos;"),
];

/// What to say of a refused name that has to do with an escaped class.
pub fn escapes(
    refusal: Refusal,
    grammar: &[Record],
    templates: &[Record],
    names: &Names,
) -> Vec<String> {
    let Refusal::Name { stream, record } = refusal else {
        return Vec::new();
    };
    let place = usize::try_from(record).unwrap_or(usize::MAX);
    let said = match stream {
        Stream::Grammar => class_named(grammar, names, place),
        _ => type_named(grammar, templates, names, place),
    };
    said.unwrap_or_default()
}

/// An escaped class that names no earlier plain class.
fn class_named(grammar: &[Record], names: &Names, place: usize) -> Option<Vec<String>> {
    let record = grammar.get(place).filter(|record| record.kind() == 5)?;
    let (own, named) = (u16::from(record.a()), record.b());
    let all = classes(grammar);
    let why = match all.get(usize::from(named)) {
        None => format!("there is none: the last is class {}", all.len() - 1),
        Some(_) if named == own => "that is itself".to_string(),
        Some(Class::Escaped(_)) => "that is an escaped class, too".to_string(),
        Some(Class::Plain { .. }) => "that comes later".to_string(),
    };
    let is_plain =
        |&number: &u16| matches!(all.get(usize::from(number)), Some(Class::Plain { .. }));
    let plain: Vec<String> = (0..own)
        .filter(is_plain)
        .map(|number| bare(&names.class(number)))
        .collect();
    let choice = match plain.as_slice() {
        [] => "no plain class stands before it".to_string(),
        [only] => format!("the plain class before it is {only}"),
        several => format!("the plain classes before it are {}", listed(several)),
    };
    let (own, named) = (names.class(own), names.class(named));
    Some(vec![
        format!("{own} is to be the escaped form of {named}: {why}"),
        choice,
    ])
}

/// A text type that names an escaped class.
fn type_named(
    grammar: &[Record],
    templates: &[Record],
    names: &Names,
    place: usize,
) -> Option<Vec<String>> {
    let record = templates.get(place)?;
    let is_text = record.kind() == 1 && record.a() == 0;
    let all = classes(grammar);
    let class = all.get(usize::from(record.b())).filter(|_| is_text)?;
    let Class::Escaped(plain) = class else {
        return None;
    };
    let (class, plain) = (names.class(record.b()), names.class(*plain));
    Some(vec![
        format!("{class} is the escaped form of {plain}"),
        format!(
            "a text is kept plain, so its type names {plain}; \
             a place writes the entities where {class} is asked for"
        ),
    ])
}

/// The plain text that an escaped one stands for, if it is one.
pub fn plain_of(text: &[u8]) -> Option<Vec<u8>> {
    let mut plain = vec![0; text.len()];
    let unescaping = feed::unescape(text, &mut plain).finished().ok()?;
    Some(unescaping.of(&plain).to_vec())
}

/// The bytes of a text when it is written with its entities.
pub fn escaped_length(text: impl Iterator<Item = u8>) -> usize {
    let written = |byte: u8| {
        let entity = ENTITIES.iter().find(|(five, _)| five.as_bytes() == [byte]);
        entity.map_or(1, |(_, entity)| entity.len())
    };
    text.map(written).sum()
}

/// The first of the five characters that begins none of the entities.
pub fn bare_character(text: &str) -> Option<String> {
    for (count, (at, _)) in text.char_indices().enumerate() {
        let rest = &text[at..];
        let is_entity = ENTITIES.iter().any(|(_, it)| rest.starts_with(it));
        let five = ENTITIES.iter().find(|(five, _)| rest.starts_with(five));
        if let Some((five, entity)) = five.filter(|_| !is_entity) {
            let wrong = match reference(rest) {
                Some(reference) => {
                    let entities = ENTITIES.map(|(_, entity)| entity).join(" ");
                    format!("{reference} is none of {entities}")
                }
                None => format!("{five} is written {entity}"),
            };
            return Some(format!("character {}: {wrong}", count + 1));
        }
    }
    None
}

/// The reference that a text begins with, if it looks like one.
fn reference(text: &str) -> Option<&str> {
    let end = text.strip_prefix('&')?.find(';')?;
    let name = &text[1..=end];
    let looks = |byte: u8| byte.is_ascii_alphanumeric() || byte == b'#';
    (!name.is_empty() && name.bytes().all(looks)).then(|| &text[..end + 2])
}

#[cfg(test)]
mod tests {
    use super::{escaped_length, plain_of, ENTITIES};
    use crate::reasons::explain::{
        explain, explained_by_name, explained_with, remarks_of, words, Lent, Set,
    };
    use crate::reasons::names::Names;

    const SMALL: &str = r#"class c 1 to 4 { ' '-'~' U+0370-U+03FF } class other 1 to 4 { 'a'-'z' }
        class x = escaped c class y = escaped other production p of n = "<" x ">"
        type t = text c template a (v: t) of n = build p (place v)
        value "a&b""#;

    /// What `explain` adds, and all that it says.
    fn said(from: &str, to: &str, number: u8) -> (Vec<String>, String) {
        let text = explained_with(SMALL, from, to);
        (remarks_of(&text, number), text)
    }

    #[test]
    fn an_escaped_class_that_names_no_earlier_plain_class() {
        let named = |to: &str| {
            let (lines, text) = said("class y = escaped other", to, 5);
            assert!(text.contains("An escaped class naming no earlier plain class"));
            lines
        };
        let choice = "the plain classes before it are 0, 1";
        let wrong = |named: usize, why: &str| {
            let first = format!("class 3 is to be the escaped form of class {named}: {why}");
            [first, choice.to_string()]
        };
        assert_eq!(
            named("class y = escaped x"),
            wrong(2, "that is an escaped class, too")
        );
        assert_eq!(named("class y = escaped y"), wrong(3, "that is itself"));
        let later = "class y = escaped z class z 0 to 1 { 'a' }";
        assert_eq!(named(later), wrong(4, "that comes later"));
        let (lines, _) = said("class c 1", "class z = escaped other class c 1", 5);
        assert_eq!(lines[1], "no plain class stands before it");
    }

    #[test]
    fn a_class_that_is_not_there() {
        let streams = crate::assemble(SMALL).expect("streams");
        let mut payload = [0; feed::PAYLOAD];
        assert_eq!(feed::unpack(1, &streams.grammar, &mut payload).number, 0);
        // Record 5 is class 2; its b becomes 9.
        assert_eq!(payload[40..43], [5, 2, 0]);
        payload[42] = 9;
        let mut grammar = [0; feed::BLOCK];
        assert_eq!(feed::pack(1, &payload, &mut grammar).number, 0);
        let set = Set {
            grammar: &grammar,
            templates: &streams.templates,
            value: &streams.value,
        };
        let text = explain(set, Lent::default()).text;
        let line =
            "class 2 is to be the escaped form of class 9: there is none: the last is class 3";
        assert!(text.contains(line), "{text}");
    }

    #[test]
    fn a_text_type_of_an_escaped_class() {
        let (lines, text) = said("text c", "text x", 5);
        assert_eq!(
            lines,
            [
                "class 2 is the escaped form of class 0",
                "a text is kept plain, so its type names class 0; \
                 a place writes the entities where class 2 is asked for"
            ]
        );
        assert!(text.contains("or a text type naming an escaped class, is refused as 5"));
    }

    const ASKED: &str = "class 2, the escaped form of class 0, is asked for here, \
                         by element 2 of production 0 (child 1)";

    /// What is said of a literal, behind the two lines of its position.
    fn said_of_literal(literal: &str) -> Vec<String> {
        let (lines, text) = said("place v", &format!("literal {literal}"), 7);
        let of_entities = text.contains("turned into the five predefined entities of XML 1.0");
        assert_eq!(of_entities, lines[2].starts_with("character "), "{text}");
        let of_lexemes = text.contains("A lexeme of a class is well-formed UTF-8");
        assert_eq!(of_lexemes, !of_entities, "{text}");
        assert_eq!(
            lines[..2],
            [
                ASKED,
                "a literal is written as it stands, so it must be the escaped text itself"
            ]
        );
        lines[2..].to_vec()
    }

    #[test]
    fn a_literal_that_is_no_escaped_text() {
        assert_eq!(
            said_of_literal(r#""a&b""#),
            ["character 2: & is written &amp;"]
        );
        assert_eq!(
            said_of_literal(r#""α'""#),
            ["character 2: ' is written &apos;"]
        );
        assert_eq!(
            said_of_literal(r#""&amp;\"""#),
            ["character 6: \" is written &quot;"]
        );
        assert_eq!(
            said_of_literal(r#""&#38;""#),
            ["character 1: &#38; is none of &amp; &lt; &gt; &quot; &apos;"]
        );
        assert_eq!(
            said_of_literal(r#""&amp""#),
            ["character 1: & is written &amp;"]
        );
        assert_eq!(
            said_of_literal(r#""\xC0\x80""#),
            ["this text is no well-formed UTF-8"]
        );
    }

    #[test]
    fn a_literal_of_other_characters() {
        let due = "due are 1 to 4 characters of U+0020-U+007E U+0370-U+03FF";
        assert_eq!(
            said_of_literal(r#""&amp;&amp;&amp;&amp;&lt;""#),
            [
                "it stands for \"&&&&<\"",
                due,
                "this text has 5 characters, 1 too many"
            ]
        );
        assert_eq!(
            said_of_literal(r#""&amp;é""#),
            [
                "it stands for \"&é\"",
                due,
                "this text has 2 characters, and number 2, U+00E9 ('é'), is in no range"
            ]
        );
    }

    #[test]
    fn a_place_with_another_text() {
        let (lines, text) = said("text c", "text other", 7);
        assert!(text.contains("A place there takes text of the plain class"));
        assert_eq!(
            lines,
            [
                ASKED,
                "a place here has a text of class 0",
                "the path (variable 0) finds a text of class 1"
            ]
        );
        let (lines, text) = said("place v", "build p", 7);
        assert!(text.contains("Class: a literal that is a lexeme, or a place"));
        assert_eq!(
            lines,
            [
                ASKED,
                "a literal or a place stands for a class, and a build stands here"
            ]
        );
    }

    #[test]
    fn a_value_that_is_too_long_when_plain() {
        let (lines, _) = said(r#""a&b""#, r#""a&b<c""#, 8);
        assert_eq!(
            lines,
            [
                "this is the whole value",
                "a text of class 0 is due here: 1 to 4 characters of U+0020-U+007E U+0370-U+03FF",
                "this text has 5 characters, 1 too many"
            ]
        );
    }

    #[test]
    fn classes_by_name() {
        let names = Names {
            classes: words("title word xml_title xml_word"),
            ..Names::default()
        };
        let said = |from: &str, to: &str, number: u8| {
            remarks_of(&explained_by_name(SMALL, from, to, &names), number)
        };
        assert_eq!(
            said("class y = escaped other", "class y = escaped x", 5),
            [
                "class `xml_word` is to be the escaped form of class `xml_title`: that is an escaped class, too",
                "the plain classes before it are `title`, `word`"
            ]
        );
        assert_eq!(
            said("text c", "text x", 5)[0],
            "class `xml_title` is the escaped form of class `title`"
        );
        assert_eq!(
            said("text c", "text other", 7)[1..],
            [
                "a place here has a text of class `title`",
                "the path (variable 0) finds a text of class `word`"
            ]
        );
    }

    #[test]
    fn lengths_with_entities() {
        for text in ["", "abc", "&<>\"'", "α & β"] {
            let written: String = text
                .chars()
                .map(|it| {
                    let entity = ENTITIES.iter().find(|(five, _)| it.to_string() == *five);
                    entity.map_or(it.to_string(), |(_, entity)| entity.to_string())
                })
                .collect();
            assert_eq!(escaped_length(text.bytes()), written.len());
            assert_eq!(plain_of(written.as_bytes()), Some(text.as_bytes().to_vec()));
        }
    }
}
