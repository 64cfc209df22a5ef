//! The paper's cases M1 to M12, those it has run only, and trees deeper than any stack.

use build::{blocks, record, Element, Grammar, Node, Path, Templates, Value, TEMPLATES, VALUE};
use reference::{check, evaluate};

fn grammar() -> Vec<u8> {
    let keyword = |text: &str| Element::keyword(text);
    let mut grammar = Grammar::new();
    grammar.class(1, 4, &[(0x61, 0x7A), (0x370, 0x3FF)]);
    grammar.production(0, [keyword("["), Element::Repetition(1), keyword("]")]);
    grammar.production(1, [keyword("<"), Element::Class(0), keyword(">")]);
    grammar.stream()
}

/// Template 0 of the example, with this node as each entry's text.
fn templates(text: Node) -> Vec<u8> {
    let entry = Node::build(1, [text]);
    let entries = Node::sequence([Node::each(Path::variable(0), entry)]);
    templates_of(Node::build(0, [entries]))
}

fn templates_of(body: Node) -> Vec<u8> {
    let mut templates = Templates::new();
    let title = templates.text(0);
    let titles = templates.list(title);
    templates.template(0, [titles], body);
    templates.stream()
}

fn titles(texts: &[&[u8]]) -> Vec<u8> {
    Value::list(texts.iter().map(|text| Value::text(*text))).stream()
}

/// What the paper's program would print, with this fuel and so many bytes of output.
fn printed(templates: &[u8], value: &[u8], fuel: u32, out: usize) -> String {
    let mut out = vec![0xEE; out];
    let mut scratch = vec![7; 4_800];
    let answer = evaluate(&grammar(), templates, value, fuel, &mut out, &mut scratch);
    let text = match answer.number {
        0 => String::from_utf8_lossy(&out[..answer.bytes]),
        _ => "".into(),
    };
    format!("{answer}\n{text}")
}

#[test]
fn m1_to_m12() {
    let place = templates(Node::place(Path::variable(1)));
    let both = titles(&[b"ab", "αβγδ".as_bytes()]);
    let text = "0 0 0 7 16\n[<ab><αβγδ>]";
    assert_eq!(printed(&place, &both, 1_000_000, 65_536), text);
    assert_eq!(printed(&place, &both, 7, 65_536), text);
    assert_eq!(printed(&place, &both, 6, 65_536), "10 2 9 6 6\n");
    assert_eq!(printed(&place, &both, 0, 65_536), "10 2 4 0 0\n");
    assert_eq!(printed(&place, &both, 1_000_000, 16), text);
    assert_eq!(printed(&place, &both, 1_000_000, 15), "12 2 4 7 15\n");
    assert_eq!(printed(&place, &both, 1_000_000, 13), "12 2 9 7 6\n");
    let none = titles(&[]);
    assert_eq!(printed(&place, &none, 1_000_000, 65_536), "0 0 0 3 2\n[]");
    let five = titles(&["αβγδε".as_bytes()]);
    assert_eq!(printed(&place, &five, 1_000_000, 65_536), "8 3 1 0 0\n");
    let empty = titles(&[b""]);
    assert_eq!(printed(&place, &empty, 1_000_000, 65_536), "8 3 1 0 0\n");
    let again = templates_of(Node::expand(0, [Path::variable(0)]));
    assert_eq!(printed(&again, &none, 201, 65_536), "11 2 4 201 0\n");
    assert_eq!(printed(&again, &none, 200, 65_536), "10 2 4 200 0\n");
}

#[test]
fn cases_that_are_run_only() {
    let place = templates(Node::place(Path::variable(1)));
    let overlong = titles(&[&[0xC0, 0x80]]);
    assert_eq!(printed(&place, &overlong, 1_000, 100), "8 3 1 0 0\n");
    let value = titles(&[b"ab"]);
    let literal = templates(Node::literal("AB"));
    assert_eq!(printed(&literal, &value, 1_000, 100), "7 2 9 0 0\n");
    let list = templates(Node::place(Path::variable(0)));
    assert_eq!(printed(&list, &value, 1_000, 100), "7 2 9 0 0\n");
}

/// Streams of one tree, each level with one child: 8,000 levels of lists, 7,000 of builds.
fn deep_streams() -> (Vec<u8>, Vec<u8>) {
    let chain = |kind, levels: u16| {
        (0..levels).map(move |at| record(kind, 0, 0, levels - at, u16::from(at + 1 < levels)))
    };
    let value: Vec<_> = chain(3, 8_000).collect();
    let mut templates = vec![
        record(1, 2, 0, 0, 0),
        record(3, 1, 0, 7_002, 0),
        record(4, 0, 0, 0, 0),
    ];
    templates.extend(chain(5, 7_000));
    (blocks(TEMPLATES, &templates), blocks(VALUE, &value))
}

#[test]
fn layout_needs_no_stack_and_a_walk_little() {
    let run = || {
        let (deep, value) = deep_streams();
        assert_eq!(check(&grammar(), &deep).to_string(), "4 2 203 0 0");
        let mut templates = Templates::new();
        templates.list(0);
        templates.template(0, [0], Node::expand(0, [Path::variable(0)]));
        let templates = templates.stream();
        assert_eq!(printed(&templates, &value, 1_000, 10), "4 3 200 0 0\n");
        let flat = Value::list([]).stream();
        assert_eq!(printed(&templates, &flat, 1_000, 10), "11 2 3 201 0\n");
    };
    let small = std::thread::Builder::new().stack_size(256 * 1024);
    let thread = small.spawn(run).expect("a thread");
    thread.join().expect("no overflow");
}
