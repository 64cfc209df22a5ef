mod arms;

use super::*;
use crate::streams::record::Found;

const SMALL: &str = r#"
    class letter 0 to 9 { 'a'-'z' }
    production all of page = "<" letter part* ">"
    production one of part = letter
    type word = text letter
    type flag = yesno
    type words = list word
    type page = record { title: word, done: flag, parts: words }
    template main (p: page) of page = build all (place p.title sequence (
        if p.done then expand tail (p.title) else build one (literal "n")
        for part in p.parts do build one (place part)
    ))
    template tail (w: word) of part = build one (place w)
    value { title: "t" done: yes parts: ["a" "b"] }
"#;

fn text_of(description: &str) -> String {
    let streams = assemble(description).expect("streams");
    let (mut output, mut scratch) = ([0; 100], [0; feed::SCRATCH]);
    let Streams {
        grammar,
        templates,
        value,
    } = &streams;
    let answer = feed::evaluate(grammar, templates, value, 100, &mut output, &mut scratch);
    let finished = answer.finished().expect("a finished text");
    String::from_utf8(finished.of(&output).to_vec()).expect("UTF-8")
}

fn mistake(from: &str, to: &str) -> String {
    assert!(SMALL.contains(from), "{from}");
    let mistakes = assemble(&SMALL.replacen(from, to, 1)).expect_err("a mistake");
    mistakes[0].message.clone()
}

#[test]
fn every_form_is_assembled() {
    assert_eq!(text_of(SMALL), "<ttab>");
    assert_eq!(text_of(&SMALL.replace("done: yes", "done: no")), "<tnab>");
    assert_eq!(text_of(&SMALL.replace("[\"a\" \"b\"]", "[]")), "<tt>");
    let commas = SMALL.replace("part*", "part*(\", \")");
    assert_eq!(text_of(&commas), "<tt, a, b>");
    let none = SMALL.replace("part*", "part*(\"\")");
    assert_eq!(text_of(&none), "<ttab>");
}

#[test]
fn classes_may_be_escaped() {
    let escaped = SMALL
        .replace("'a'-'z' }", "'a'-'z' '&' '<' } class xml = escaped letter")
        .replace("= letter\n", "= xml\n")
        .replace("literal \"n\"", "literal \"&lt;\"")
        .replace("done: yes", "done: no");
    let value = escaped.replace("[\"a\" \"b\"]", "[\"a&\" \"<\"]");
    assert_eq!(text_of(&value), "<t&lt;a&amp;&lt;>");
    assert_eq!(
        mistake("type word", "class xml = escaped leter type word"),
        "no class is named `leter`: did you mean `letter`?"
    );
}

#[test]
fn numbers_stand_for_names() {
    let numbers = SMALL
        .replace("place p.title", "place 0.0")
        .replace("p.parts", "0.2");
    assert_eq!(assemble(&numbers), assemble(SMALL));
}

#[test]
fn a_rule_broken_is_left_to_the_check() {
    let streams = assemble(&SMALL.replace("literal \"n\"", "literal \"N\"")).expect("streams");
    let answer = feed::check(&streams.grammar, &streams.templates);
    assert_eq!(answer.number, 7);
}

#[test]
fn names_must_be_there() {
    assert_eq!(
        mistake("= letter\n", "= lettr\n"),
        "no class or nonterminal is named `lettr`: did you mean `letter`?"
    );
    assert_eq!(
        mistake("part*", "letter*"),
        "`letter` is a class, and only a nonterminal is repeated"
    );
    assert_eq!(
        mistake("part*", "parts*"),
        "no nonterminal is named `parts`: did you mean `part`?"
    );
    assert_eq!(
        mistake("text letter", "text page"),
        "no class is named `page`"
    );
    assert_eq!(
        mistake("list word", "list wrd"),
        "no type is named `wrd`: did you mean `word`?"
    );
    assert_eq!(
        mistake("build all", "build al"),
        "no production is named `al`: did you mean `all`?"
    );
    assert_eq!(
        mistake("expand tail", "expand tall"),
        "no template is named `tall`: did you mean `tail`?"
    );
    assert_eq!(
        mistake("place p.title", "place q.title"),
        "no variable is named `q` here: known are `p`"
    );
    assert_eq!(
        mistake("place p.title", "place p.titel"),
        "the type `page` has no field `titel`: did you mean `title`?"
    );
    assert_eq!(
        mistake("place p.title", "place 7.title"),
        "what stands before `title` has no known type: name the field by its number"
    );
}

#[test]
fn names_stand_once() {
    assert_eq!(
        mistake("type flag", "type word"),
        "`word` is a type already, at line 5"
    );
    assert_eq!(
        mistake("one of part", "one of letter"),
        "`letter` is a class already, and no nonterminal"
    );
    assert_eq!(
        mistake("done: flag", "title: flag"),
        "`title` is a field already, at line 8"
    );
}

#[test]
fn labels_follow_the_declared_type() {
    assert_eq!(
        mistake("title: \"t\"", "name: \"t\""),
        "the field `title` comes here, not `name`"
    );
    assert_eq!(
        mistake("[\"a\" \"b\"]", "[] more: yes"),
        "`more` labels a value where the declared type has no field"
    );
}

#[test]
fn what_no_stream_holds_is_a_mistake() {
    assert_eq!(
        mistake("place p.title", "place p.0.0.0.0.0.0"),
        "a path has up to 5 fields, and this is one of 6"
    );
    let long = format!("[\"{}\"]", "a".repeat(65_000));
    assert_eq!(
        mistake("[\"a\" \"b\"]", &long),
        "the value takes 8131 records, and a stream holds 8064: from here on they don't fit"
    );
    let longer = format!("[\"{}\"]", "a".repeat(65_536));
    assert_eq!(
        mistake("[\"a\" \"b\"]", &longer),
        "65536 bytes of text are more than the 65,535 that a record counts"
    );
    assert_eq!(
        assemble("value yes").expect_err("no grammar")[0].message,
        "the description has nothing for the grammar: no `class` and no `production`"
    );
    assert_eq!(
        assemble("").expect_err("no grammar")[0].message,
        "the description has nothing for the grammar: no `class` and no `production`"
    );
}

#[test]
fn the_257th_class_is_a_mistake() {
    let classes: String = (0..257)
        .map(|n| format!("class c{n} 0 to 1 {{}}\n"))
        .collect();
    let mistake = assemble(&format!("{classes}value yes")).expect_err("too many");
    assert_eq!(
        mistake[0].to_string(),
        "line 257, column 7: this is a class past the 256 that fit"
    );
}

/// So many productions of one nonterminal, of which each writes its own number; the last is built.
fn numbered_productions(count: usize) -> String {
    let productions: String = (0..count)
        .map(|n| format!("production p{n} of n = \"{n}\"\n"))
        .collect();
    let last = count - 1;
    format!("{productions}type t = yesno template m (t: t) of n = build p{last} value yes")
}

#[test]
fn productions_past_the_256th_are_built() {
    for count in [1, 255, 256, 257, 258, 512, 513, 700, 2_688] {
        let text = text_of(&numbered_productions(count));
        assert_eq!(text, (count - 1).to_string());
    }
}

#[test]
fn the_number_of_a_production_is_a_word() {
    let streams = assemble(&numbered_productions(700)).expect("streams");
    let grammar = Found::read(&streams.grammar, Some(Kind::Grammar)).records;
    for (number, a, c) in [
        (0, 0, 0),
        (255, 255, 0),
        (256, 0, 1),
        (257, 1, 1),
        (511, 255, 1),
        (512, 0, 2),
        (699, 187, 2),
    ] {
        // Each takes three records: its head, its keyword and the keyword's text.
        assert_eq!(grammar[3 * number].0, [3, a, 0, 0, c, 0, 1, 0], "{number}");
    }
    let templates = Found::read(&streams.templates, Some(Kind::Templates)).records;
    assert_eq!(templates[3].0, [5, 0, 187, 2, 1, 0, 0, 0]);
}

#[test]
fn as_many_productions_as_a_stream_holds() {
    let productions = |count: usize| -> String {
        let production = |n| format!("production p{n} of n =\n");
        (0..count).map(production).collect()
    };
    let rest = "type t = yesno template m (t: t) of n = build p8063 value yes";
    let full = productions(8_064) + rest;
    assert_eq!(text_of(&full), "");
    let mistake = |description: &str| assemble(description).expect_err("too many")[0].to_string();
    assert_eq!(
        mistake(&(productions(8_065) + rest)),
        "line 8065, column 12: this is a production past the 8064 that fit"
    );
    assert_eq!(
        mistake(&format!("{full} class c 0 to 1 {{}}")),
        "line 8064, column 12: the grammar takes 8065 records, and a stream holds 8064: \
         from here on they don't fit"
    );
    assert_eq!(
        mistake(&(productions(70_000) + rest)),
        "line 8065, column 12: this is a production past the 8064 that fit"
    );
}

#[test]
fn several_mistakes_are_found_at_once() {
    let description = SMALL
        .replace("text letter", "text leter")
        .replace("build all", "build al")
        .replace("place w)", "place v)")
        .replace("p.title sequence", "q.title sequence");
    let mistakes = assemble(&description).expect_err("mistakes");
    let said: Vec<&str> = mistakes.iter().map(|it| it.message.as_str()).collect();
    assert_eq!(
        said,
        [
            "no class is named `leter`: did you mean `letter`?",
            "no production is named `al`: did you mean `all`?",
            "no variable is named `q` here: known are `p`",
            "no variable is named `v` here: known are `w`",
        ]
    );
}

#[test]
fn every_record_has_its_place_and_its_names() {
    let tree = parse(SMALL).expect("a tree");
    let set = Assembled::of(&tree, end_of(SMALL)).expect("streams");
    let said: Vec<String> = set.grammar.sheet.origins[..4]
        .iter()
        .chain(&set.templates.sheet.origins[..4])
        .map(|origin| format!("{}:{} {:?}", origin.at.line, origin.at.column, origin.names))
        .collect();
    assert_eq!(
        said,
        [
            r#"2:11 [(Class, "letter")]"#,
            "2:27 []",
            r#"3:16 [(Production, "all"), (Nonterminal, "page")]"#,
            "3:30 []",
            r#"5:10 [(Type, "word")]"#,
            r#"6:10 [(Type, "flag")]"#,
            r#"7:10 [(Type, "words")]"#,
            r#"8:10 [(Type, "page")]"#,
        ]
    );
    for made in [&set.grammar, &set.templates] {
        assert_eq!(made.sheet.records.len(), made.sheet.origins.len());
    }
}
