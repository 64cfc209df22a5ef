//! Request a: titles with a separator between them. The value is a record of three lists, and
//! template 0 has a for over each of them, and a build of a literal before the last.

use build::{blocks, record, Element, Grammar, Node, Path, Record, Templates, Value, GRAMMAR};
use reference::{check, evaluate};

fn grammar(separator: &[u8]) -> Grammar {
    let mut grammar = Grammar::new();
    grammar.class(0, 4, &[(0x61, 0x7A)]);
    let row = Element::separated(1, separator);
    let [open, close] = ["[", "]"].map(Element::keyword);
    grammar.production(0, [open, row, close]);
    grammar.production(1, [Element::Class(0)]);
    grammar.production(1, [Element::Nonterminal(0)]);
    grammar
}

/// Behind the types (records 0 to 5) and the template's head (6 and 7) stand the build at 8, the
/// sequence at 9, the fors at 10, 15 and 23, each with its body two records on, and the build of
/// a literal at 20.
fn templates() -> Vec<u8> {
    let mut templates = Templates::new();
    let title = templates.text(0);
    let titles = templates.list(title);
    let whole = templates.record([titles; 3]);
    let each = |field| {
        let body = Node::build(1, [Node::place(Path::variable(1))]);
        Node::each(Path::variable(0).field(field), body)
    };
    let literal = Node::build(1, [Node::literal("x")]);
    let items = [each(0), each(1), literal, each(2)];
    templates.template(0, [whole], Node::build(0, [Node::sequence(items)]));
    templates.stream()
}

fn value(lists: [&[&str]; 3]) -> Vec<u8> {
    let list = |texts: &[&str]| Value::list(texts.iter().map(|text| Value::text(*text)));
    Value::record(lists.map(list)).stream()
}

fn run(separator: &[u8], lists: [&[&str]; 3], fuel: u32, out: usize) -> (String, Vec<u8>) {
    let (mut out, mut scratch) = (vec![0xEE; out], vec![7; 4_800]);
    let grammar = grammar(separator).stream();
    let value = value(lists);
    let answer = evaluate(&grammar, &templates(), &value, fuel, &mut out, &mut scratch);
    assert!(out[answer.bytes..].iter().all(|&byte| byte == 0xEE));
    (answer.to_string(), out[..answer.bytes].to_vec())
}

#[track_caller]
fn answers(lists: [&[&str]; 3], fuel: u32, out: usize, answer: &str, text: &str) {
    let (answered, written) = run(b", ", lists, fuel, out);
    assert_eq!(answered, answer);
    assert_eq!(String::from_utf8_lossy(&written), text);
}

#[test]
fn before_every_item_but_the_first() {
    answers(
        [&["a"], &["b", "c"], &["d"]],
        100,
        100,
        "0 0 0 15 15",
        "[a, b, c, x, d]",
    );
    answers([&[], &[], &[]], 100, 100, "0 0 0 7 3", "[x]");
    answers([&[], &["b"], &[]], 100, 100, "0 0 0 9 6", "[b, x]");
    answers([&[], &[], &["d", "e"]], 100, 100, "0 0 0 11 9", "[x, d, e]");
    // Items that write nothing count.
    answers([&["", ""], &[], &[""]], 100, 100, "0 0 0 13 9", "[, , x, ]");
}

#[test]
fn before_the_items_fuel() {
    let lists: [&[&str]; 3] = [&["a"], &["b", "c"], &[]];
    // The second for is reached with nothing written, its first body behind a separator.
    answers(lists, 5, 100, "10 2 15 5 2", "[a");
    answers(lists, 6, 100, "10 2 17 6 4", "[a, ");
    answers(lists, 7, 100, "10 2 18 7 4", "[a, ");
    answers(lists, 8, 100, "10 2 17 8 7", "[a, b, ");
    // Right before the literal's build, which is an item of the sequence itself.
    answers(lists, 10, 100, "10 2 20 10 10", "[a, b, c, ");
}

#[test]
fn whole_or_not_at_all() {
    let lists: [&[&str]; 3] = [&["a"], &["b"], &[]];
    // 12 with the sequence's place and the steps so far, before the item's fuel is tried.
    answers(lists, 100, 2, "12 2 9 6 2", "[a");
    answers(lists, 100, 3, "12 2 9 6 2", "[a");
    answers(lists, 6, 3, "12 2 9 6 2", "[a");
    answers(lists, 100, 4, "12 2 18 8 4", "[a, ");
    answers(lists, 5, 3, "10 2 15 5 2", "[a");
    answers(lists, 100, 5, "12 2 9 8 5", "[a, b");
}

#[test]
fn separators_of_any_bytes() {
    let lists: [&[&str]; 3] = [&["a"], &["b"], &[]];
    assert_eq!(run(b"", lists, 100, 100).1, b"[abx]");
    assert_eq!(
        run(&[0xFF, 0xC0], lists, 100, 100).1,
        b"[a\xFF\xC0b\xFF\xC0x]"
    );
    let long = [0xC0; 1_100];
    let whole = [b"[a", &long[..], b"b", &long[..], b"x]"].concat();
    assert_eq!(
        run(&long, lists, 100, 2_205),
        ("0 0 0 11 2205".into(), whole)
    );
}

/// One of its records changed.
fn checked(separator: &[u8], change: impl Fn(&mut Vec<Record>)) -> String {
    let mut records = grammar(separator).records();
    change(&mut records);
    check(&blocks(GRAMMAR, &records), &templates()).to_string()
}

#[test]
fn layout_and_names() {
    // Record 5 is the repetition, 6 its separator.
    assert_eq!(checked(b", ", |_| {}), "0 0 0 0 0");
    assert_eq!(
        checked(b", ", |r| r[5] = record(4, 4, 1, 2, 1)),
        "3 1 0 0 0"
    );
    assert_eq!(
        checked(b", ", |r| r[5] = record(4, 5, 1, 2, 0)),
        "3 1 0 0 0"
    );
    assert_eq!(
        checked(b", ", |r| r[5] = record(4, 3, 1, 2, 0)),
        "3 1 0 0 0"
    );
    assert_eq!(
        checked(b", ", |r| r[5] = record(4, 4, 1, 1, 0)),
        "3 1 0 0 0"
    );
    assert_eq!(
        checked(b", ", |r| r[5] = record(4, 4, 1, 3, 0)),
        "0 0 0 0 0"
    );
    assert_eq!(
        checked(b", ", |r| r[5] = record(4, 4, 1, 9, 0)),
        "3 1 0 0 0"
    );
    assert_eq!(checked(b", ", |r| r[6][7] = 1), "3 1 0 0 0");
    assert_eq!(
        checked(b", ", |r| r[5] = record(4, 4, 2, 2, 0)),
        "5 1 5 0 0"
    );
    for form in 0..3 {
        let changed = checked(b"", |r| r[5] = record(4, form, 0, 1, 0));
        assert_eq!(changed, "3 1 0 0 0");
    }
    assert_eq!(checked(b"", |r| r[5] = record(4, 3, 1, 0, 0)), "0 0 0 0 0");
}

/// The text of a body of nonterminal 0, on a yes.
fn text_of(body: Node) -> String {
    let mut templates = Templates::new();
    let yes_no = templates.yes_no();
    templates.template(0, [yes_no], body);
    templates.template(1, [], Node::build(1, [Node::literal("t")]));
    let (mut out, mut scratch) = (vec![0; 100], vec![0; 4_800]);
    let (grammar, yes) = (grammar(b", ").stream(), Value::YesNo(true).stream());
    let templates = templates.stream();
    let answer = evaluate(&grammar, &templates, &yes, 100, &mut out, &mut scratch);
    assert_eq!(answer.number, 0, "{answer}");
    String::from_utf8_lossy(&out[..answer.bytes]).into_owned()
}

#[test]
fn each_sequence_has_its_own_items() {
    let word = |text: &str| Node::build(1, [Node::literal(text)]);
    let row = |items: Vec<Node>| Node::build(0, [Node::Sequence(items)]);
    let inner = || Node::build(2, [row(vec![word("a"), word("b")])]);
    let body = row(vec![inner(), word("c"), inner()]);
    assert_eq!(text_of(body), "[[a, b], c, [a, b]]");
}

#[test]
fn an_if_or_an_expand_is_one_item() {
    let word = |text: &str| Node::build(1, [Node::literal(text)]);
    let either = |yes, no| Node::either(Path::variable(0), yes, no);
    let twice = either(either(word(""), word("n")), word("n"));
    let items = [Node::expand(1, []), twice, Node::expand(1, [])];
    let body = Node::build(0, [Node::sequence(items)]);
    assert_eq!(text_of(body), "[t, , t]");
}
