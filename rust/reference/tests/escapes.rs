//! Request c: titles with the five entities. Class 0 is plain, 1 the escaped form of it, 2 another
//! plain class with the same characters, 3 the escaped form of 2, and 4 that of 0 again.

use build::{
    blocks, record, Class, Element, Grammar, Node, Path, Record, Templates, Value, GRAMMAR,
};
use reference::{check, evaluate};

/// Production 0 of nonterminal 0: a lexeme of a class between brackets.
fn grammar(class: u16) -> Grammar {
    let ranges = [(0x20, 0x7E), (0x370, 0x3FF)];
    let mut grammar = Grammar::new();
    grammar.class(1, 11, &ranges);
    grammar.escaped(0);
    grammar.class(1, 11, &ranges);
    grammar.escaped(2);
    grammar.escaped(0);
    let [open, close] = ["[", "]"].map(Element::keyword);
    grammar.production(0, [open, Element::Class(class), close]);
    grammar
}

/// A text type of a class, and template 0, whose node stands at record 4.
fn templates(class: u16, node: Node) -> Vec<u8> {
    let mut templates = Templates::new();
    let text = templates.text(class);
    templates.template(0, [text], Node::build(0, [node]));
    templates.stream()
}

fn place() -> Node {
    Node::place(Path::variable(0))
}

fn run(templates: &[u8], title: &[u8], fuel: u32, out: usize) -> (String, String) {
    run_in(&grammar(1), templates, title, fuel, out)
}

fn run_in(
    grammar: &Grammar,
    templates: &[u8],
    title: &[u8],
    fuel: u32,
    out: usize,
) -> (String, String) {
    let (mut out, mut scratch) = (vec![0xEE; out], vec![7; 4_800]);
    let (grammar, value) = (grammar.stream(), Value::text(title).stream());
    let answer = evaluate(&grammar, templates, &value, fuel, &mut out, &mut scratch);
    assert!(out[answer.bytes..].iter().all(|&byte| byte == 0xEE));
    let text = String::from_utf8_lossy(&out[..answer.bytes]);
    (answer.to_string(), text.into_owned())
}

#[track_caller]
fn writes(title: &str, text: &str) {
    let answer = format!("0 0 0 2 {}", text.len());
    let written = run(&templates(0, place()), title.as_bytes(), 9, 99);
    assert_eq!(written, (answer, text.to_string()));
}

#[test]
fn a_place_writes_the_entities() {
    writes("Salt & Rope", "[Salt &amp; Rope]");
    writes("&<>\"'", "[&amp;&lt;&gt;&quot;&apos;]");
    writes("&amp;", "[&amp;amp;]");
    writes("&#38;", "[&amp;#38;]");
    writes("αβ&γδ", "[αβ&amp;γδ]");
}

#[test]
fn counts_are_of_plain_characters() {
    let eleven = "&".repeat(11);
    writes(&eleven, &format!("[{}]", "&amp;".repeat(11)));
    let place = templates(0, place());
    let answered = |title: &[u8]| run(&place, title, 9, 99).0;
    assert_eq!(answered("&".repeat(12).as_bytes()), "8 3 0 0 0");
    assert_eq!(answered(b""), "8 3 0 0 0");
    assert_eq!(answered(b"\xC0\x80"), "8 3 0 0 0");
}

#[test]
fn whole_or_not_at_all() {
    let place = templates(0, place());
    let at = |room| run(&place, b"a&", 9, room);
    assert_eq!(at(8), ("0 0 0 2 8".into(), "[a&amp;]".into()));
    assert_eq!(at(7), ("12 2 3 2 7".into(), "[a&amp;".into()));
    for room in 1..7 {
        assert_eq!(at(room), ("12 2 4 2 1".into(), "[".into()));
    }
    assert_eq!(at(0), ("12 2 3 1 0".into(), "".into()));
    assert_eq!(run(&place, b"a&", 1, 7).0, "10 2 4 1 1");
}

#[test]
fn a_literal_is_an_escaped_lexeme() {
    let literal = |text: &str| run(&templates(0, Node::literal(text)), b"a", 9, 99);
    for text in [
        "&amp;",
        "a&lt;b",
        "plain",
        "&amp;amp;",
        &"&quot;".repeat(11),
    ] {
        let answer = format!("0 0 0 2 {}", text.len() + 2);
        assert_eq!(literal(text), (answer, format!("[{text}]")));
    }
    let wrong = ["&", "<", ">", "\"", "'", "&#38;", "&AMP;", "&;", "&amp", ""];
    for text in wrong {
        assert_eq!(literal(text).0, "7 2 4 0 0", "{text}");
    }
    assert_eq!(literal(&"&amp;".repeat(12)).0, "7 2 4 0 0");
    // In the position of the plain class they are as they were.
    let plain = |text: &str| {
        let templates = templates(0, Node::literal(text));
        run_in(&grammar(0), &templates, b"a", 9, 99).0
    };
    assert_eq!(plain("&"), "0 0 0 2 3");
    assert_eq!(plain("&quot;&quot;"), "7 2 4 0 0");
}

#[test]
fn a_place_takes_texts_of_the_plain_class() {
    // The type is a text of class 0: escaped classes 1 and 4 take it, class 3 and plain 2 don't.
    let answered = |class| run_in(&grammar(class), &templates(0, place()), b"&", 9, 99);
    assert_eq!(answered(0), ("0 0 0 2 3".into(), "[&]".into()));
    assert_eq!(answered(1), ("0 0 0 2 7".into(), "[&amp;]".into()));
    assert_eq!(answered(4), answered(1));
    for class in [2, 3] {
        assert_eq!(answered(class).0, "7 2 4 0 0");
    }
    // A text type that names an escaped class is refused before that.
    for class in [1, 3, 4, 5] {
        let templates = templates(class, place());
        assert_eq!(run(&templates, b"&", 9, 99).0, "5 2 0 0 0");
    }
}

/// What check answers with some of the grammar's records changed. Records 0 to 2 are class 0 and its
/// ranges, 3 class 1, 4 to 6 class 2, 7 and 8 classes 3 and 4, 9 the production.
fn checked(change: impl Fn(&mut Vec<Record>)) -> String {
    let mut records = grammar(1).records();
    change(&mut records);
    let grammar = blocks(GRAMMAR, &records);
    check(&grammar, &templates(0, place())).to_string()
}

#[test]
fn layout() {
    assert_eq!(checked(|_| {}), "0 0 0 0 0");
    let broken = [
        (3, record(5, 1, 0, 1, 0)),
        (3, record(5, 1, 0, 0, 1)),
        (3, record(5, 0, 0, 0, 0)),
        (3, record(5, 2, 0, 0, 0)),
        (3, record(6, 1, 0, 0, 0)),
        (8, record(5, 3, 0, 0, 0)),
        (8, record(5, 5, 0, 0, 0)),
        (4, record(1, 1, 1, 11, 2)),
    ];
    for (place, record) in broken {
        let answer = checked(|records| records[place] = record);
        assert_eq!(answer, "3 1 0 0 0", "{record:?}");
    }
    // Behind the productions there is no class, and behind an escaped class no range.
    assert_eq!(checked(|r| r.push(record(5, 5, 0, 0, 0))), "3 1 0 0 0");
    assert_eq!(checked(|r| r.insert(4, r[1])), "3 1 0 0 0");
}

#[test]
fn names() {
    let naming = |plain| checked(|r| r[3] = record(5, 1, plain, 0, 0));
    assert_eq!(naming(0), "0 0 0 0 0");
    // Itself, a later plain one, a later escaped one, none, and none in 16 bits.
    for plain in [1, 2, 3, 5, 256] {
        assert_eq!(naming(plain), "5 1 3 0 0");
    }
    // An earlier one that is escaped, too.
    assert_eq!(checked(|r| r[8] = record(5, 4, 1, 0, 0)), "5 1 8 0 0");
    // Before the elements, and before bounds.
    let element = |r: &mut Vec<Record>| r[12] = record(4, 1, 9, 0, 0);
    assert_eq!(checked(element), "5 1 12 0 0");
    let both = |r: &mut Vec<Record>| {
        element(r);
        r[8] = record(5, 4, 4, 0, 0);
        r[0] = record(1, 0, 2, 1, 2);
    };
    assert_eq!(checked(both), "5 1 8 0 0");
}

#[test]
fn bounds_are_those_of_plain_classes() {
    // b of an escaped class is above its c, which is zero, and judged by nobody.
    assert_eq!(checked(|r| r[8] = record(5, 4, 2, 0, 0)), "0 0 0 0 0");
    assert_eq!(checked(|r| r[4] = record(1, 2, 2, 1, 2)), "6 1 4 0 0");
}

#[test]
fn two_hundred_and_fifty_six_classes_of_both_kinds() {
    let row = |count| {
        let mut grammar = grammar(1);
        while grammar.classes.len() < count {
            match grammar.classes.len() % 2 {
                0 => grammar.class(1, 2, &[]),
                _ => grammar.add(Class::Escaped(0)),
            };
        }
        let last = Element::Class(count as u16 - 1);
        grammar.production(1, [last]);
        check(&grammar.stream(), &templates(0, place())).to_string()
    };
    assert_eq!(row(256), "0 0 0 0 0");
    assert_eq!(row(257), "3 1 0 0 0");
    assert_eq!(row(258), "3 1 0 0 0");
}
