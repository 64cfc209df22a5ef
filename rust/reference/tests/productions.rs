//! Request f: a production's number is a word, a its low byte and c its high byte. As many as a
//! stream holds, each the next number. Classes keep their byte.

use build::{blocks, record, Element, Grammar, Node, Path, Record, Templates, Value, GRAMMAR};
use reference::{check, evaluate};

/// The records of a stream of 128 blocks.
const FULL: usize = 128 * 63;

/// Production n of nonterminal n modulo `nonterminals` is the keyword `<n>`.
fn grammar(productions: u16, nonterminals: u16) -> Grammar {
    let mut grammar = Grammar::new();
    for number in 0..productions {
        let keyword = Element::keyword(format!("<{number}>"));
        grammar.production(number % nonterminals, [keyword]);
    }
    grammar
}

/// A yes/no, and template 0, whose build stands at record 3.
fn templates(nonterminal: u16, production: u16) -> Vec<u8> {
    let mut templates = Templates::new();
    let yes_no = templates.yes_no();
    templates.template(nonterminal, [yes_no], Node::build(production, []));
    templates.stream()
}

/// The answer of a run, and the text that it left.
fn rendered(grammar: &[u8], templates: &[u8]) -> (String, String) {
    let (mut out, mut scratch) = ([0; 99], [0; 4_800]);
    let value = Value::YesNo(true).stream();
    let answer = evaluate(grammar, templates, &value, 9, &mut out, &mut scratch);
    let text = String::from_utf8_lossy(&out[..answer.bytes]);
    (answer.to_string(), text.into_owned())
}

fn built(grammar: &Grammar, nonterminal: u16, production: u16) -> (String, String) {
    rendered(&grammar.stream(), &templates(nonterminal, production))
}

fn finished(text: &str) -> (String, String) {
    (format!("0 0 0 1 {}", text.len()), text.into())
}

#[test]
fn as_many_productions_as_there_are() {
    for count in [1, 2, 255, 256, 257, 258, 511, 512, 513, 700, 2_600] {
        for nonterminals in [1, 3, count] {
            let grammar = grammar(count, nonterminals);
            for number in [0, count / 2, count - 1] {
                let expected = finished(&format!("<{number}>"));
                let found = built(&grammar, number % nonterminals, number);
                assert_eq!(found, expected, "{number} of {count}");
            }
        }
    }
}

#[test]
fn a_stream_full_of_empty_productions() {
    for nonterminals in [1, FULL] {
        let mut grammar = Grammar::new();
        for number in 0..FULL {
            grammar.production((number % nonterminals) as u16, []);
        }
        let last = FULL as u16 - 1;
        let nonterminal = last % nonterminals as u16;
        assert_eq!(built(&grammar, nonterminal, last), finished(""));
        assert_eq!(built(&grammar, nonterminal, last + 1).0, "5 2 3 0 0");
    }
}

/// What a check answers with some of these heads changed. They are of productions without elements,
/// so that production n is record n.
fn changed(count: u16, change: impl FnOnce(&mut Vec<Record>)) -> String {
    let mut grammar = Grammar::new();
    for _ in 0..count {
        grammar.production(0, []);
    }
    let mut records = grammar.records();
    change(&mut records);
    check(&blocks(GRAMMAR, &records), &templates(0, 0)).to_string()
}

/// The head of an empty production with these fields for its number.
fn head(a: u8, c: u16) -> Record {
    record(3, a, 0, c, 0)
}

const ACCEPTED: &str = "0 0 0 0 0";
const REFUSED: &str = "3 1 0 0 0";

#[test]
fn the_high_byte_is_judged() {
    for count in [258, 700, 2_000] {
        assert_eq!(changed(count, |_| ()), ACCEPTED);
        for number in [0, 1, 254, 255, 256, 257] {
            let [low, high] = (number as u16).to_le_bytes();
            let high = u16::from(high);
            for wrong in [0, 1, 2, 7, 255, 256, 257, 512, 513, 0xFF00, 0xFFFF] {
                let answer = changed(count, |r| r[number] = head(low, wrong));
                let expected = if wrong == high { ACCEPTED } else { REFUSED };
                assert_eq!(answer, expected, "production {number}, c {wrong}");
            }
        }
    }
}

#[test]
fn the_high_byte_is_no_low_byte() {
    // The low byte in c, and the high byte in a: the same for 0 and 257 only.
    for number in [0_u16, 1, 255, 256, 257, 258, 513, 600] {
        let [low, high] = number.to_le_bytes();
        let answer = changed(700, |r| r[usize::from(number)] = head(high, low.into()));
        let expected = if low == high { ACCEPTED } else { REFUSED };
        assert_eq!(answer, expected, "{number}");
    }
    // c in big-endian order.
    assert_eq!(changed(300, |r| r[256] = head(0, 1 << 8)), REFUSED);
}

#[test]
fn numbers_dont_start_again() {
    let again = |r: &mut Vec<Record>| {
        for (number, record) in r.iter_mut().enumerate() {
            *record = head((number % 256) as u8, 0);
        }
    };
    assert_eq!(changed(256, again), ACCEPTED);
    for count in [257, 258, 512, 700] {
        assert_eq!(changed(count, again), REFUSED, "{count}");
    }
    // Nor do they go by 256.
    assert_eq!(changed(3, |r| r[1] = head(0, 1)), REFUSED);
}

#[test]
fn a_number_skipped_or_doubled() {
    for number in [0, 1, 100, 254, 255, 256, 257, 511, 512, 698] {
        let skipped = changed(700, |r| drop(r.drain(number..=number)));
        assert_eq!(skipped, REFUSED, "{number} skipped");
        let doubled = changed(700, |r| r.insert(number, r[number]));
        assert_eq!(doubled, REFUSED, "{number} doubled");
        let swapped = changed(700, |r| r.swap(number, number + 1));
        assert_eq!(swapped, REFUSED, "{number} swapped");
    }
    // The last one gone leaves a row that is whole.
    assert_eq!(changed(700, |r| r.truncate(699)), ACCEPTED);
}

#[test]
fn a_build_of_a_production_that_isnt_there() {
    for count in [1, 255, 256, 257, 300, 700] {
        let grammar = grammar(count, 1);
        // Of count + 256 a production with the same low byte is there, if count is over 256.
        for missing in [count, count + 1, count + 256, 0x7FFF, 0x8000, 0xFFFF] {
            assert_eq!(built(&grammar, 0, missing).0, "5 2 3 0 0", "{missing}");
        }
    }
}

#[test]
fn a_build_of_another_nonterminals_production() {
    let grammar = grammar(700, 2);
    assert_eq!(built(&grammar, 0, 600), finished("<600>"));
    // Production 601 is of nonterminal 1, as is 89, its number modulo 256.
    assert_eq!(built(&grammar, 0, 601).0, "7 2 3 0 0");
}

/// 699 keywords of nonterminals 0 to 49, and behind them production 699, a row of nonterminal 901, and
/// 700, its items: a keyword of nonterminal 40 and a word.
fn late_row() -> Grammar {
    let mut grammar = grammar(699, 50);
    let word = grammar.class(1, 9, &[(0x61, 0x7A)]);
    grammar.production(900, [Element::keyword("["), Element::separated(901, ", ")]);
    grammar.production(901, [Element::Nonterminal(40), Element::Class(word)]);
    grammar
}

/// Template 0 on a text: a row of three items.
fn row_of_three() -> Vec<u8> {
    let mut templates = Templates::new();
    let text = templates.text(0);
    let item = |keyword| {
        let place = Node::place(Path::variable(0));
        Node::build(700, [Node::build(keyword, []), place])
    };
    let items = Node::sequence([40, 290, 690].map(item));
    templates.template(900, [text], Node::build(699, [items]));
    templates.stream()
}

#[test]
fn elements_and_children_of_late_productions() {
    let (mut out, mut scratch) = ([0; 99], [0; 4_800]);
    let (grammar, templates) = (late_row().stream(), row_of_three());
    let value = Value::text("a").stream();
    let answer = evaluate(&grammar, &templates, &value, 99, &mut out, &mut scratch);
    let written = "[<40>a, <290>a, <690>a";
    assert_eq!(answer.to_string(), format!("0 0 0 11 {}", written.len()));
    assert_eq!(out[..answer.bytes], *written.as_bytes());
}

#[test]
fn an_element_of_a_late_production_that_names_nothing() {
    let last = late_row().records().len() - 1;
    for (element, missing) in [
        (0, Element::Nonterminal(902)),
        (0, Element::Repetition(50)),
        (1, Element::Class(1)),
    ] {
        let mut grammar = late_row();
        grammar.productions[700].elements[element] = missing;
        let checked = check(&grammar.stream(), &row_of_three());
        let place = last - 1 + element;
        assert_eq!(checked.to_string(), format!("5 1 {place} 0 0"));
    }
}

#[test]
fn classes_keep_their_byte() {
    for (count, expected) in [(255, ACCEPTED), (256, ACCEPTED), (257, REFUSED)] {
        let mut grammar = grammar(700, 1);
        for _ in 0..count {
            grammar.class(0, 1, &[]);
        }
        let checked = check(&grammar.stream(), &templates(0, 699)).to_string();
        assert_eq!(checked, expected, "{count}");
    }
    // c of a class is its most, not a high byte: the 257th can't be said.
    for (kind, most) in [(1, 1), (1, 256), (5, 1), (5, 0)] {
        let mut records = grammar(1, 1).records();
        let class = |number: usize| record(1, number as u8, 0, 1, 0);
        let row = (0..256).map(class).chain([record(kind, 0, 0, most, 0)]);
        records.splice(0..0, row);
        let checked = check(&blocks(GRAMMAR, &records), &templates(0, 0));
        assert_eq!(checked.to_string(), REFUSED);
    }
}

/// Many nonterminals are named as fast as few: a set whose every record names one.
#[test]
fn thousands_of_nonterminals_that_name_one_another() {
    const COUNT: u16 = 4_000;
    let mut grammar = Grammar::new();
    for number in 0..COUNT - 1 {
        grammar.production(number, [Element::Nonterminal(COUNT - 1 - number)]);
    }
    grammar.production(COUNT - 1, []);
    let body = || Node::build(0, [Node::build(COUNT - 1, [])]);
    let mut templates = Templates::new();
    let yes_no = templates.yes_no();
    for _ in 0..1_500 {
        templates.template(0, [yes_no], body());
    }
    assert_eq!(
        rendered(&grammar.stream(), &templates.stream()).0,
        "0 0 0 2 0"
    );
    // The last nonterminal goes: production 0 is the first to name it, at record 1.
    grammar.productions.pop();
    let checked = check(&grammar.stream(), &templates.stream());
    assert_eq!(checked.to_string(), "5 1 1 0 0");
}
