//! What is named and isn't there, or not early enough (refusal 5), for a person who wants to mend it.
//!
//! Layouts are sound here. Of escaped classes [`escapes`](crate::reasons::escapes) tells.

use crate::reasons::names::Names;
use crate::reasons::nodes::Form;
use crate::reasons::tables::Tables;
use crate::reasons::types::Shape;
use crate::streams::record::Record;
use feed::Stream;

/// Why what a record names isn't there.
pub fn named(
    stream: Stream,
    grammar: &[Record],
    templates: &[Record],
    names: &Names,
    record: usize,
) -> Option<String> {
    let tables = Tables::of(grammar, templates);
    match stream {
        Stream::Grammar => element(&tables, names, *grammar.get(record)?),
        _ => in_templates(&tables, names, record),
    }
}

/// An element of a production.
fn element(tables: &Tables<'_>, names: &Names, element: Record) -> Option<String> {
    match (element.kind(), element.a()) {
        (4, 1) => missing("class", element.b(), tables.classes.len()),
        (4, 2..=4) => nonterminal(tables, names, element.b()),
        _ => None,
    }
}

fn in_templates(tables: &Tables<'_>, names: &Names, record: usize) -> Option<String> {
    let head = *tables.records.get(record)?;
    let types = tables.types.count();
    match (head.kind(), head.a()) {
        (1, 0) => missing("class", head.b(), tables.classes.len()),
        (1, 2) | (4, _) => missing("type", head.b(), types),
        (2, _) => missing("type", head.b(), types).or_else(|| field(tables, names, record)),
        (3, _) => nonterminal(tables, names, head.b()),
        (5, _) if Form::of(head) == Some(Form::Build) => {
            missing("production", head.b(), tables.productions.len())
        }
        (5, _) if Form::of(head) == Some(Form::Expand) => {
            missing("template", head.b(), tables.templates.len())
        }
        _ => None,
    }
}

/// A number that is past the last of its row.
fn missing(what: &str, number: u16, count: usize) -> Option<String> {
    let last = match count {
        0 => format!("the set has no {what}"),
        1 => format!("{what} 0 is the only one"),
        many => format!("the last is {what} {}", many - 1),
    };
    (usize::from(number) >= count).then(|| format!("there is no {what} {number}: {last}"))
}

/// A nonterminal without a production.
fn nonterminal(tables: &Tables<'_>, names: &Names, number: u16) -> Option<String> {
    let has = tables.productions.iter().any(|it| it.nonterminal == number);
    let own = names.nonterminal(number);
    (!has).then(|| format!("there is no {own}: no production is of it"))
}

/// A field or a case of a type that doesn't stand earlier.
fn field(tables: &Tables<'_>, names: &Names, record: usize) -> Option<String> {
    let (own, field) = tables.types.holding(record)?;
    let named = usize::from(tables.records.get(record)?.b());
    let (field, what, holder) = match tables.types.shape(own)? {
        Shape::Variant(_) => (names.case(own, field?), "case", "variant"),
        _ => (names.field(own, field?), "field", "record"),
    };
    let (own_type, named_type) = (names.type_of(own), names.type_of(named));
    match named.checked_sub(own)? {
        0 => Some(format!(
            "{field} of {own_type} is of that very type: \
             a {what}'s type stands earlier, and only a list may name any type"
        )),
        _ => Some(format!(
            "{field} of {own_type} is of {named_type}, which comes later: \
             a {what}'s type stands earlier than its {holder}"
        )),
    }
}

#[cfg(test)]
mod tests {
    use super::*;
    use crate::reasons::explain::{
        explain, explained_by_name, explained_with, remarks_of, words, Lent, Set,
    };

    const SMALL: &str = r#"class c 1 to 4 { 'a'-'z' } production p of n = c n n* n*("; ")
        type t = text c type r = record { first: t } type l = list t
        template a (x: t) of n = build p (place x expand a (x) sequence () sequence ())
        value "a""#;

    /// What `explain` adds where a record of the grammar (1) or the templates (2) names another number.
    fn said(kind: u8, record: usize, old: u16, named: u8) -> Vec<String> {
        let mut streams = crate::assemble(SMALL).expect("streams");
        let stream = match kind {
            1 => &mut streams.grammar,
            _ => &mut streams.templates,
        };
        let mut payload = [0; feed::PAYLOAD];
        assert_eq!(feed::unpack(kind, stream, &mut payload).number, 0);
        let at = 8 * record + 2;
        assert_eq!(u16::from_le_bytes([payload[at], payload[at + 1]]), old);
        payload[at] = named;
        assert_eq!(feed::pack(kind, &payload, stream).number, 0);
        let set = Set {
            grammar: &streams.grammar,
            templates: &streams.templates,
            value: &streams.value,
        };
        remarks_of(&explain(set, Lent::default()).text, 5)
    }

    #[test]
    fn what_the_grammar_names() {
        assert_eq!(
            said(1, 3, 0, 9),
            ["there is no class 9: class 0 is the only one"]
        );
        for element in [4, 5, 6] {
            assert_eq!(
                said(1, element, 0, 9),
                ["there is no nonterminal 9: no production is of it"]
            );
        }
    }

    #[test]
    fn what_the_templates_name() {
        for (record, old, line) in [
            (0, 0, "there is no class 9: class 0 is the only one"),
            (2, 0, "there is no type 9: the last is type 2"),
            (3, 0, "there is no type 9: the last is type 2"),
            (4, 0, "there is no nonterminal 9: no production is of it"),
            (5, 0, "there is no type 9: the last is type 2"),
            (
                6,
                0,
                "there is no production 9: production 0 is the only one",
            ),
            (9, 0, "there is no template 9: template 0 is the only one"),
        ] {
            assert_eq!(said(2, record, old, 9), [line]);
        }
    }

    #[test]
    fn a_production_past_the_256th() {
        let production = |number: u16| {
            let [low, high] = number.to_le_bytes();
            Record::new(3, low, [0, high.into(), 0])
        };
        let grammar: Vec<Record> = (0..700).map(production).collect();
        let said = |number| {
            let build = [Record::new(5, 0, [number, 1, 0])];
            named(Stream::Templates, &grammar, &build, &Names::default(), 0)
        };
        assert_eq!([255, 256, 699].map(said), [None, None, None]);
        for number in [700, 768, 65_535] {
            let line = format!("there is no production {number}: the last is production 699");
            assert_eq!(said(number), Some(line));
        }
    }

    #[test]
    fn fields_of_later_types() {
        let names = Names {
            types: words("title sound sounds"),
            fields: ["", "first"].map(words).to_vec(),
            ..Names::default()
        };
        let said = |to: &str| {
            let text = explained_by_name(SMALL, "first: t", to, &names);
            remarks_of(&text, 5)
        };
        assert_eq!(
            said("first: l"),
            [
                "field `first` of type `sound` is of type `sounds`, which comes later: \
              a field's type stands earlier than its record"
            ]
        );
        assert_eq!(
            said("first: r"),
            ["field `first` of type `sound` is of that very type: \
              a field's type stands earlier, and only a list may name any type"]
        );
        let text = explained_with(SMALL, "first: t", "one: t, two: l");
        assert!(remarks_of(&text, 5)[0].starts_with("field 1 of type 1 is of type 2, which "));
    }

    #[test]
    fn a_row_that_is_empty() {
        let grammar = [Record::new(3, 0, [0, 0, 1]), Record::new(4, 1, [0, 0, 0])];
        assert_eq!(
            named(Stream::Grammar, &grammar, &[], &Names::default(), 1).as_deref(),
            Some("there is no class 0: the set has no class")
        );
    }
}
