//! Texts as titles and literals of a class that holds every code point: both machines take exactly
//! those that are well-formed UTF-8 and have no character but those that XML 1.0 admits.

use build::{Element, Grammar, Node, Path, Templates, Value, PAYLOAD};
use trials::compare::{self, Call};
use trials::generate::Streams;
use trials::{Reference, SECOND};

/// What XML 1.0 admits, as the request lists it.
fn admitted(character: char) -> bool {
    const ADMITTED: [(u32, u32); 6] = [
        (0x9, 0x9),
        (0xA, 0xA),
        (0xD, 0xD),
        (0x20, 0xD7FF),
        (0xE000, 0xFFFD),
        (0x10000, 0x10FFFF),
    ];
    let code = u32::from(character);
    ADMITTED
        .iter()
        .any(|&(low, high)| low <= code && code <= high)
}

/// Lexemes of a class that holds every code point, up to so many characters, or of its escaped form.
fn grammar(most: u16, escaped: bool) -> Grammar {
    let mut grammar = Grammar::new();
    grammar.class(1, most, &[(0, 0x10FFFF)]);
    let class = if escaped { grammar.escaped(0) } else { 0 };
    grammar.production(0, [Element::Class(class)]);
    grammar
}

/// One node in the position of the class. It has five records before it.
fn templates(node: Node) -> Templates {
    let mut templates = Templates::new();
    let title = templates.text(0);
    templates.template(0, [title], Node::build(0, [node]));
    templates
}

/// A set of one title.
fn titled(most: u16, escaped: bool, title: &[u8]) -> Streams {
    let place = Node::place(Path::variable(0));
    Streams::of(
        &grammar(most, escaped),
        &templates(place),
        &Value::text(title),
    )
}

/// A set of one literal.
fn literal(most: u16, escaped: bool, text: &[u8]) -> Streams {
    let text = match escaped {
        true => build::escaped(text),
        false => text.to_vec(),
    };
    Streams::of(
        &grammar(most, escaped),
        &templates(Node::Literal(text)),
        &Value::text("a"),
    )
}

/// Whether both machines finish a set. If not, they refuse its title, or its literal, as they must.
#[track_caller]
fn finished(streams: &Streams, refused: [u64; 3]) -> bool {
    let call = Call {
        fuel: 9,
        out: streams.templates.len() + streams.value.len(),
        scratch: 4_800,
    };
    let [number, kind, place, ..] =
        compare::evaluate(&Reference, &SECOND, streams.parts(), call).expect("no difference");
    if number != 0 {
        assert_eq!([number, kind, place], refused);
    }
    number == 0
}

const TITLE: [u64; 3] = [8, 3, 0];
const LITERAL: [u64; 3] = [7, 2, 4];

/// Holds a text against all four positions.
#[track_caller]
fn takes(text: &[u8], expected: bool) {
    let most = u16::MAX;
    for escaped in [false, true] {
        let title = finished(&titled(most, escaped, text), TITLE);
        let literal = finished(&literal(most, escaped, text), LITERAL);
        assert_eq!([title, literal], [expected; 2], "{text:02x?}, {escaped}");
    }
}

/// Bytes around the borders of what may follow a first byte.
const EDGES: [u8; 12] = [
    0x00, 0x7F, 0x80, 0x8F, 0x90, 0x9F, 0xA0, 0xBE, 0xBF, 0xC0, 0xF4, 0xFF,
];

/// Every text of one or two bytes, and every longer one near a border of RFC 3629.
fn texts() -> Vec<Vec<u8>> {
    let mut texts = vec![vec![]];
    for first in 0..=255 {
        texts.push(vec![first]);
        texts.extend((0..=255).map(|second| vec![first, second]));
    }
    for first in 0xC0..=0xFF {
        for second in EDGES {
            for third in EDGES {
                texts.push(vec![first, second, third]);
                texts.extend(EDGES.map(|fourth| vec![first, second, third, fourth]));
            }
        }
    }
    texts
}

#[test]
fn texts_are_taken_exactly_when_they_are_one_admitted_character() {
    let mut streams = titled(1, false, b"a");
    let mut taken = 0;
    for text in texts() {
        streams.value = Value::text(text.clone()).stream();
        let characters = std::str::from_utf8(&text).map(|text| text.chars().collect::<Vec<char>>());
        let one = matches!(characters.as_deref(), Ok(&[one]) if admitted(one));
        assert_eq!(finished(&streams, TITLE), one, "{text:02x?}");
        taken += usize::from(one);
    }
    println!("{taken} texts are one admitted character");
}

/// Every character that is admitted, in texts as long as a stream holds; every other one by itself.
#[test]
fn every_character() {
    let (inside, outside): (Vec<char>, Vec<char>) = ('\0'..=char::MAX).partition(|&c| admitted(c));
    assert_eq!([inside.len(), outside.len()], [0x110000 - 2048 - 31, 31]);
    for characters in inside.chunks(15_000) {
        let text: String = characters.iter().collect();
        takes(text.as_bytes(), true);
    }
    for character in outside {
        takes(character.to_string().as_bytes(), false);
    }
}

/// Every character of one and two bytes, those around the surrogates and up to the end of the three
/// bytes, and those around the other borders, each by itself.
#[test]
fn characters_near_a_border_by_themselves() {
    let borders = [0..=0x7FF, 0xD000..=0xE010, 0xFF00..=0x10010];
    let planes = [0x1FFFD..=0x20001, 0x10FFFD..=0x10FFFF];
    let codes = borders.into_iter().chain(planes).flatten();
    for character in codes.filter_map(char::from_u32) {
        takes(character.to_string().as_bytes(), admitted(character));
    }
}

/// Each character next to a border of what is admitted, at each place around a border of two blocks:
/// whole before it, split in each way, and behind it. A title's text begins at byte 8 of the payloads,
/// a literal's at byte 40.
#[test]
fn characters_over_a_border_of_blocks() {
    let next = [
        0x0, 0x8, 0x9, 0xA, 0xB, 0xC, 0xD, 0xE, 0x1F, 0x20, 0x7F, 0x80, 0x85, 0x9F, 0xD7FF, 0xE000,
        0xFFFD, 0xFFFE, 0xFFFF, 0x10000, 0x1FFFE, 0x10FFFF,
    ];
    for character in next.into_iter().filter_map(char::from_u32) {
        for letters in [8, 40].map(|before| PAYLOAD - before) {
            for back in 0..=5 {
                let text = format!("{}{character}oo", "o".repeat(letters - back));
                takes(text.as_bytes(), admitted(character));
            }
        }
    }
}
