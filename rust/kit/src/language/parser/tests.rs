use super::*;
use crate::language::description::{Element, NodeForm, Value, ValueForm};

fn mistake(description: &str) -> String {
    parse(description).expect_err("a mistake")[0].to_string()
}

#[test]
fn every_form_of_node_is_read() {
    let found = parse(
        "template t (a: b) of n = build p (literal \"x\" place a.f.0 expand t (a 3) \
         if a.f then build p else sequence () sequence (for i in a do build p (place i)))",
    )
    .expect("a description");
    let NodeForm::Build(_, children) = &found.templates[0].body.form else {
        panic!("a build")
    };
    assert_eq!(children.len(), 5);
}

#[test]
fn a_match_has_its_arms_as_they_are_written() {
    let found = parse(
        "template t (a: b) of n = match a.f (video as v then build p, \"a-b\" as x then place x \
         7 as template_ then match x ())",
    )
    .expect("a description");
    let NodeForm::Match(path, arms) = &found.templates[0].body.form else {
        panic!("a match")
    };
    assert_eq!(path.written(), "a.f");
    let said: Vec<String> = arms
        .iter()
        .map(|arm| format!("{} as {}", arm.case.by, arm.content.word))
        .collect();
    assert_eq!(said, ["video as v", "\"a-b\" as x", "7 as template_"]);
    assert!(matches!(&arms[2].node.form, NodeForm::Match(_, none) if none.is_empty()));
}

#[test]
fn a_variant_has_named_cases() {
    let found = parse("type t = variant { audio: a, \"a-b\": b value: c }").expect("a type");
    let TypeForm::Variant(cases) = &found.types[0].form else {
        panic!("a variant")
    };
    let names: Vec<&str> = cases.iter().map(|it| it.name.word.as_str()).collect();
    assert_eq!(names, ["audio", "a-b", "value"]);
}

#[test]
fn cases_of_a_value() {
    let found = parse("value [ case audio yes case \"a-b\" [] case 3 { case: case x no } ]");
    let Some(ValueForm::List(items)) = found.expect("a value").value.map(|it| it.form) else {
        panic!("a list")
    };
    let case = |value: &Value| match &value.form {
        ValueForm::Case(case, _) => case.by.to_string(),
        _ => panic!("a case"),
    };
    let cases: Vec<String> = items.iter().map(case).collect();
    assert_eq!(cases, ["audio", "\"a-b\"", "3"]);
    assert_eq!(
        mistake("value case [] yes"),
        "line 1, column 12: a case's name is expected here, not `[`"
    );
    assert_eq!(
        mistake("value case 256 yes"),
        "line 1, column 12: a case has a number of at most 255"
    );
}

#[test]
fn every_form_of_element_is_read() {
    let found = parse(r#"production p of n = "x" a b* c*(", ") "y" d* ("") e"#);
    let elements = &found.expect("a description").productions[0].elements;
    let said: Vec<String> = elements
        .iter()
        .map(|element| match element {
            Element::Keyword(text) => format!("{:?}", text.bytes),
            Element::One(name) => name.word.clone(),
            Element::Many(name, None) => format!("{}*", name.word),
            Element::Many(name, Some(text)) => format!("{}*{:?}", name.word, text.bytes),
        })
        .collect();
    assert_eq!(
        said,
        ["[120]", "a", "b*", "c*[44, 32]", "[121]", "d*[]", "e"]
    );
}

#[test]
fn every_form_of_value_is_read() {
    let found = parse("value { name: \"x\" yes: no [yes, {}] }").expect("a description");
    let Some(Value {
        form: ValueForm::Record(children),
        ..
    }) = found.value
    else {
        panic!("a record")
    };
    let labels: Vec<_> = children
        .iter()
        .map(|(l, _)| l.as_ref().map(|n| n.word.as_str()))
        .collect();
    assert_eq!(labels, [Some("name"), Some("yes"), None]);
}

#[test]
fn a_mistake_says_what_is_expected_and_where() {
    assert_eq!(
        mistake("clas t"),
        "line 1, column 1: `class`, `production`, `type`, `template` or `value` is expected here, not `clas`: did you mean `class`?"
    );
    assert_eq!(
        mistake("class t 1 4"),
        "line 1, column 11: `to` is expected here, not the number 4"
    );
    assert_eq!(
        mistake("class t 1 to 70000 {}"),
        "line 1, column 14: the greatest number of characters is at most 65,535"
    );
    assert_eq!(
        mistake("class type 1"),
        "line 1, column 7: the class's name is expected here; `type` begins a part and is no name"
    );
    assert_eq!(
        mistake("type t = set t"),
        "line 1, column 10: `text`, `yesno`, `list`, `record` or `variant` is expected here, not `set`"
    );
    assert_eq!(
        mistake("value [\n \"a\"\n"),
        "line 1, column 7: this `[` is not closed before the end of the description"
    );
    assert_eq!(
        mistake("value yes value no"),
        "line 1, column 11: there is one value only"
    );
    assert_eq!(
        mistake("class t"),
        "line 1, column 8: the least number of characters is expected here, \
         not the end of the description"
    );
    assert_eq!(
        mistake("class t x"),
        "line 1, column 9: the least number of characters is expected here, not `x`"
    );
    assert_eq!(
        mistake("production p of n = m*(x)"),
        "line 1, column 24: a text in quotes is expected here, not `x`"
    );
    assert_eq!(
        mistake("production p of n = m*(\",\" \";\")"),
        "line 1, column 28: `)` is expected here, not a text: the `(` at line 1, column 23 is not closed"
    );
    assert_eq!(
        mistake("template t (a: b) of n = place 256"),
        "line 1, column 32: a variable has a number of at most 255"
    );
}

#[test]
fn nesting_is_bounded() {
    let deep = format!("value {}{}", "[".repeat(DEEPEST), "]".repeat(DEEPEST));
    assert!(parse(&deep).is_ok());
    let deeper = format!("value {}", "[".repeat(100_000));
    assert!(mistake(&deeper).ends_with("this nests over 300 deep"));
}

fn mistakes(description: &str) -> Vec<String> {
    let mistakes = parse(description).expect_err("mistakes");
    mistakes.iter().map(ToString::to_string).collect()
}

#[test]
fn each_part_may_have_its_mistake() {
    assert_eq!(
        mistakes("class t 1 4 {}\ntype class = yesno\n  type x\nvalue \"a\n"),
        [
            "line 4, column 7: this text has no closing quote on its line",
            "line 1, column 11: `to` is expected here, not the number 4",
            "line 2, column 6: the type's name is expected here; `class` begins a part and is no name",
            "line 4, column 1: `=` is expected here, not `value`",
        ]
    );
}

#[test]
fn an_unclosed_bracket_names_its_opener() {
    assert_eq!(
        mistakes("template t (a: b) of n =\n  build p (place a\nvalue {}\n"),
        ["line 3, column 1: the `(` at line 2, column 11 is not closed before `value`, which begins a part and is no name"]
    );
    assert_eq!(
        mistakes("type r = record { a: t\ntype t = yesno"),
        ["line 2, column 1: the `{` at line 1, column 17 is not closed before `type`, which begins a part and is no name"]
    );
    assert_eq!(
        mistakes("value { a: [ yes\n}"),
        ["line 2, column 1: the `[` at line 1, column 12 is closed by `]`, not by `}`"]
    );
}

#[test]
fn a_quote_inside_a_text_is_told_how_to_write() {
    let description = r#"production p of n = "<?xml version="1.0"?>" c"#;
    let mistakes = parse(description).expect_err("mistakes");
    assert_eq!(
        mistakes[0].to_string(),
        "line 1, column 37: a keyword, a class or a nonterminal is expected here, not the number 1"
    );
    assert_eq!(mistakes[0].remarks, [r#"a " inside a text is written \""#]);
    assert!(parse(r#"production p of n = "<"c">" "x" d"#).is_ok());
}

/// Keys of JSON are what they are: words that begin parts, and what is no name at all.
#[test]
fn fields_may_have_any_name() {
    let found = parse(
        r#"type r = record { type: t "pub-date": t value: t }
        template m (x: r) of n = build p (place x.type place x."pub-date" place x.value)
        value { type: "a" "pub-date": "b" value: "c" }"#,
    )
    .expect("a description");
    let TypeForm::Record(fields) = &found.types[0].form else {
        panic!("a record")
    };
    let names: Vec<&str> = fields.iter().map(|it| it.name.word.as_str()).collect();
    assert_eq!(names, ["type", "pub-date", "value"]);
    let NodeForm::Build(_, children) = &found.templates[0].body.form else {
        panic!("a build")
    };
    let written: Vec<String> = children
        .iter()
        .map(|child| match &child.form {
            NodeForm::Place(path) => path.written(),
            _ => panic!("a place"),
        })
        .collect();
    assert_eq!(written, ["x.type", r#"x."pub-date""#, "x.value"]);
    assert_eq!(
        mistakes("template m (x: r) of n = place x.\ntype t = yesno"),
        ["line 2, column 1: a field is expected here; `type` begins a part and is no name"]
    );
    assert_eq!(
        mistakes(r#"type r = record { "\xFF": t }"#),
        ["line 1, column 19: a field's name is UTF-8"]
    );
}
