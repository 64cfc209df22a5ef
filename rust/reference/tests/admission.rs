//! Request d: a character of a lexeme is one that XML 1.0 admits, as well as in a range of its class.
//! Nothing else is judged by it.

use build::borders::{ADMITTED, OTHERS};
use build::{Element, Grammar, Node, Path, Templates, Value};
use reference::{check, evaluate, unescape};

const ALL: &[(u32, u32)] = &[(0, 0x10_FFFF)];

/// Class 0 of at most nine characters in these ranges, and class 1, its escaped form; production 0 of
/// nonterminal 0 is a lexeme of one of them.
fn grammar(ranges: &[(u32, u32)], asked: u16) -> Grammar {
    let mut grammar = Grammar::new();
    let plain = grammar.class(0, 9, ranges);
    grammar.escaped(plain);
    grammar.production(0, [Element::Class(asked)]);
    grammar
}

/// A text type of class 0, and template 0, whose node stands at record 4.
fn templates(node: Node) -> Vec<u8> {
    let mut templates = Templates::new();
    let text = templates.text(0);
    templates.template(0, [text], Node::build(0, [node]));
    templates.stream()
}

fn run(grammar: &Grammar, node: Node, title: &str) -> (String, String) {
    let (mut out, mut scratch) = (vec![0xEE; 99], vec![7; 4_800]);
    let (grammar, templates) = (grammar.stream(), templates(node));
    let value = Value::text(title).stream();
    let answer = evaluate(&grammar, &templates, &value, 9, &mut out, &mut scratch);
    let text = String::from_utf8_lossy(&out[..answer.bytes]);
    (answer.to_string(), text.into_owned())
}

/// A title in the position of a class, and a literal there.
fn titled(grammar: &Grammar, title: &str) -> (String, String) {
    run(grammar, Node::place(Path::variable(0)), title)
}

fn literal(grammar: &Grammar, text: &str) -> (String, String) {
    run(grammar, Node::literal(text), "")
}

fn finished(text: &str) -> (String, String) {
    (format!("0 0 0 2 {}", text.len()), text.into())
}

/// A character alone, at either end of a text, and in its midst.
fn around(character: char) -> [String; 4] {
    ["{}", "{}ab", "ab{}", "α{}語"].map(|text| text.replace("{}", &character.to_string()))
}

#[test]
fn titles_and_literals_at_each_border() {
    for asked in [0, 1] {
        let grammar = grammar(ALL, asked);
        for text in ADMITTED.map(around).as_flattened() {
            assert_eq!(titled(&grammar, text), finished(text), "{text:?}");
            assert_eq!(literal(&grammar, text), finished(text), "{text:?}");
        }
        for text in OTHERS.map(around).as_flattened() {
            assert_eq!(titled(&grammar, text).0, "8 3 0 0 0", "{text:?}");
            assert_eq!(literal(&grammar, text).0, "7 2 4 0 0", "{text:?}");
        }
    }
}

#[test]
fn an_admitted_character_must_still_lie_in_a_range() {
    let letters = grammar(&[(0x61, 0x7A)], 0);
    for text in ["\t", " ", "\u{FFFD}", "a\u{10FFFF}"] {
        assert_eq!(titled(&letters, text).0, "8 3 0 0 0", "{text:?}");
        assert_eq!(literal(&letters, text).0, "7 2 4 0 0", "{text:?}");
    }
}

#[test]
fn escaped_classes_are_judged_by_plain_characters() {
    let escaped = grammar(ALL, 1);
    assert_eq!(titled(&escaped, "\t&"), finished("\t&amp;"));
    assert_eq!(literal(&escaped, "\t&amp;"), finished("\t&amp;"));
    assert_eq!(titled(&escaped, "\u{B}&").0, "8 3 0 0 0");
    assert_eq!(literal(&escaped, "\u{B}&amp;").0, "7 2 4 0 0");
    // A reference to the character is none of the five entities, and its text is no such character.
    assert_eq!(literal(&escaped, "&#11;").0, "7 2 4 0 0");
    assert_eq!(titled(&escaped, "&#11;"), finished("&amp;#11;"));
}

#[test]
fn class_tables_stay_legal() {
    let tables: [&[(u32, u32)]; 5] = [
        ALL,
        &[(0xB, 0xB)],
        &[(0, 0x1F)],
        &[(0xFFFE, 0xFFFF)],
        &[(0xD800, 0xDFFF), (0xFFFF, 0x1_0000)],
    ];
    for ranges in tables {
        let set = grammar(ranges, 0).stream();
        let checked = check(&set, &templates(Node::place(Path::variable(0))));
        assert_eq!(checked.to_string(), "0 0 0 0 0", "{ranges:x?}");
    }
}

#[test]
fn a_class_of_other_characters_has_at_most_the_empty_lexeme() {
    let others = OTHERS.map(|other| (u32::from(other), u32::from(other)));
    let mut grammar = grammar(&others, 0);
    assert_eq!(titled(&grammar, ""), finished(""));
    assert_eq!(literal(&grammar, ""), finished(""));
    for text in OTHERS.map(String::from) {
        assert_eq!(titled(&grammar, &text).0, "8 3 0 0 0", "{text:?}");
    }
    let build::Class::Plain(class) = &mut grammar.classes[0] else {
        panic!("class 0 is plain");
    };
    class.least = 1;
    for text in OTHERS.map(String::from).into_iter().chain([String::new()]) {
        assert_eq!(titled(&grammar, &text).0, "8 3 0 0 0", "{text:?}");
    }
}

#[test]
fn keywords_and_separators_are_any_bytes() {
    for other in OTHERS.map(String::from) {
        let mut grammar = Grammar::new();
        let word = grammar.class(1, 9, &[(0x61, 0x7A)]);
        let row = Element::separated(1, other.clone());
        grammar.production(0, [Element::keyword(other.clone()), row]);
        grammar.production(1, [Element::Class(word)]);
        let mut templates = Templates::new();
        let text = templates.text(word);
        let item = || Node::build(1, [Node::place(Path::variable(0))]);
        let row = Node::sequence([item(), item()]);
        templates.template(0, [text], Node::build(0, [row]));
        let (mut out, mut scratch) = ([0; 9], [0; 4_800]);
        let (grammar, templates) = (grammar.stream(), templates.stream());
        let value = Value::text("a").stream();
        let answer = evaluate(&grammar, &templates, &value, 9, &mut out, &mut scratch);
        let written = format!("{other}a{other}a");
        assert_eq!(answer.to_string(), format!("0 0 0 6 {}", written.len()));
        assert_eq!(out[..answer.bytes], *written.as_bytes());
    }
}

#[test]
fn unescaping_knows_no_class_and_no_admission() {
    for text in OTHERS.map(around).as_flattened() {
        let mut out = [0; 99];
        let answer = unescape(format!("{text}&amp;").as_bytes(), &mut out);
        assert_eq!(answer.to_string(), format!("0 0 0 0 {}", text.len() + 1));
        assert_eq!(out[..answer.bytes], *format!("{text}&").as_bytes());
    }
}
