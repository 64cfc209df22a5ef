//! Request f from end to end: a show page of 700 productions is checked and rendered by both machines,
//! and its text given to the recogniser. Every number of it is tried wrong in turn.

use build::{blocks, escaped, Record, GRAMMAR, TEMPLATES};
use build::{Element, Grammar, Node, Path, Templates, Value};
use recogniser::{start, BUDGET};
use trials::compare;
use trials::generate::Streams;
use trials::{Fields, Reference, SECOND};

/// The parts of the page: each has a whole and a brief form, and a link.
const PARTS: u16 = 233;

/// The productions: so many of each, and the page.
const WHOLE: u16 = 0;
const BRIEF: u16 = PARTS;
const LINK: u16 = 2 * PARTS;
const PAGE: u16 = 3 * PARTS;

/// The nonterminal of a part, and that of the links to it. The page's comes behind them.
fn part(number: u16) -> u16 {
    2 * number
}

fn link(number: u16) -> u16 {
    2 * number + 1
}

/// The part that a part has links to.
fn other(number: u16) -> u16 {
    (number + 1) % PARTS
}

fn keyword(text: impl Into<Vec<u8>>) -> Element {
    Element::keyword(text)
}

/// 700 productions of 467 nonterminals. All whole parts come first, then the brief ones, then the
/// links: the productions of one part lie far from each other.
fn page_grammar() -> Grammar {
    let mut grammar = Grammar::new();
    let line = grammar.class(1, 80, &[(0x20, 0x7E), (0xA0, 0x17F), (0x370, 0x3FF)]);
    let line = Element::Class(grammar.escaped(line));
    for number in 0..PARTS {
        let head = keyword(format!("<div id=\"{number}\"><h2>"));
        let links = Element::separated(link(other(number)), " | ");
        let elements = [
            head,
            line.clone(),
            keyword("</h2>"),
            links,
            keyword("</div>\n"),
        ];
        grammar.production(part(number), elements);
    }
    for number in 0..PARTS {
        grammar.production(part(number), [keyword(format!("<hr id=\"{number}\"/>\n"))]);
    }
    for number in 0..PARTS {
        let head = keyword(format!("<a href=\"#{number}\">"));
        grammar.production(link(number), [head, line.clone(), keyword("</a>")]);
    }
    let head = [keyword("<html><title>"), line, keyword("</title>\n")];
    let parts = (0..PARTS).map(|number| Element::Nonterminal(part(number)));
    let page = head.into_iter().chain(parts).chain([keyword("</html>\n")]);
    grammar.production(2 * PARTS, page);
    grammar
}

/// A show has a title, whether it is told at length, and guests, who are linked in each whole part.
/// Every third part is whole, every third brief, and every third as the show is told.
fn page_templates() -> Templates {
    let mut templates = Templates::new();
    let (line, yes_no) = (templates.text(0), templates.yes_no());
    let guests = templates.list(line);
    let told = templates.record([line, yes_no, guests]);
    let field = |number| Path::variable(0).field(number);
    let whole = |number: u16| {
        let guest = Node::build(LINK + other(number), [Node::place(Path::variable(1))]);
        let all = Node::build(
            LINK + other(number),
            [Node::literal(format!("part {number}"))],
        );
        let links = Node::sequence([all, Node::each(field(2), guest)]);
        Node::build(WHOLE + number, [Node::place(field(0)), links])
    };
    let brief = |number: u16| Node::build(BRIEF + number, []);
    let parts = (0..PARTS).map(|number| match number % 3 {
        0 => whole(number),
        1 => brief(number),
        _ => Node::either(field(1), whole(number), brief(number)),
    });
    let children = [Node::place(field(0))].into_iter().chain(parts);
    templates.template(2 * PARTS, [told], Node::build(PAGE, children));
    templates
}

const TITLE: &str = "Salt & Rope: Σύρος, \"by night\"";
const GUESTS: [&str; 3] = ["Ødegård", "Ελένη", "d'Arc & Co"];

fn page(at_length: bool) -> Streams {
    let guests = Value::list(GUESTS.map(Value::text));
    let value = Value::record([Value::text(TITLE), Value::YesNo(at_length), guests]);
    Streams::of(&page_grammar(), &page_templates(), &value)
}

/// The page as one would write it without a grammar.
fn expected(at_length: bool) -> String {
    let entities = |text: &str| String::from_utf8(escaped(text.as_bytes())).expect("a text");
    let title = entities(TITLE);
    let mut page = format!("<html><title>{title}</title>\n");
    for number in 0..PARTS {
        if number % 3 == 1 || (number % 3 == 2 && !at_length) {
            page += &format!("<hr id=\"{number}\"/>\n");
            continue;
        }
        let link = |text: String| format!("<a href=\"#{}\">{text}</a>", other(number));
        let first = link(format!("part {number}"));
        let guests = GUESTS.map(|guest| link(entities(guest))).join(" | ");
        page += &format!("<div id=\"{number}\"><h2>{title}</h2>{first} | {guests}</div>\n");
    }
    page + "</html>\n"
}

/// What both machines answer to a check.
#[track_caller]
fn checked(grammar: &[u8], templates: &[u8]) -> Fields {
    compare::check(&Reference, &SECOND, grammar, templates)
        .unwrap_or_else(|difference| panic!("{difference}"))
}

/// What both machines answer to an evaluate call with enough of all, and the text that is left.
#[track_caller]
fn rendered(streams: &Streams) -> (Fields, String) {
    let (fields, text) = compare::rendered(&Reference, &SECOND, streams.parts())
        .unwrap_or_else(|difference| panic!("{difference}"));
    (fields, String::from_utf8(text).expect("a text"))
}

#[test]
fn a_page_of_700_productions_is_rendered() {
    assert_eq!(page_grammar().productions.len(), 700);
    for at_length in [false, true] {
        let streams = page(at_length);
        assert_eq!(checked(&streams.grammar, &streams.templates), [0; 5]);
        let (fields, text) = rendered(&streams);
        assert_eq!(fields[0], 0, "{fields:?}");
        assert_eq!(text, expected(at_length));
    }
}

#[test]
fn the_recogniser_takes_its_text_and_no_other() {
    let streams = page(true);
    let grammar = recogniser::Grammar::read(&streams.grammar).expect("a grammar");
    let page = start(&streams.templates).expect("a template 0");
    let derives = |text: &str| grammar.derives(page, text.as_bytes(), BUDGET);
    let text = expected(true);
    assert_eq!(derives(&text), Some(true));
    assert_eq!(derives(&expected(false)), Some(true));
    let changes = [
        ("<div id=\"24\">", "<div id=\"25\">"),
        ("<hr id=\"232\"/>", "<hr id=\"231\"/>"),
        ("<a href=\"#25\">part 24", "<a href=\"#24\">part 24"),
        ("</h2><a", "</h2> | <a"),
        ("<hr id=\"1\"/>\n", ""),
        ("&amp;", "&"),
    ];
    for (right, wrong) in changes {
        let changed = text.replacen(right, wrong, 1);
        assert_ne!(changed, text, "{right} isn't there");
        assert_eq!(derives(&changed), Some(false), "{wrong}");
    }
}

/// The heads of the productions of a grammar, by their numbers.
fn heads(mut grammar: Grammar) -> Vec<usize> {
    let mut heads = Vec::new();
    while grammar.productions.pop().is_some() {
        heads.push(grammar.records().len());
    }
    heads.reverse();
    heads
}

/// The blocks of some records, of which one is another.
fn with(records: &[Record], kind: u8, at: usize, other: Record) -> Vec<u8> {
    let mut records = records.to_vec();
    records[at] = other;
    blocks(kind, &records)
}

#[test]
fn every_number_out_of_sequence_is_refused() {
    let templates = page_templates().stream();
    let records = page_grammar().records();
    let heads = heads(page_grammar());
    assert_eq!(heads.len(), 700);
    for (number, &head) in heads.iter().enumerate() {
        let [kind, low, b0, b1, high, _, d0, d1] = records[head];
        assert_eq!(usize::from(low) + 256 * usize::from(high), number);
        let numbers = [
            [low, high ^ 1, 0],
            [low, high, 1],
            [low.wrapping_add(1), high, 0],
            [high, low, 0],
            [low, 0, high],
        ];
        for [a, c0, c1] in numbers {
            let other = [kind, a, b0, b1, c0, c1, d0, d1];
            let grammar = with(&records, GRAMMAR, head, other);
            let refused = if other == records[head] { 0 } else { 3 };
            let fields = checked(&grammar, &templates);
            assert_eq!(fields[0], refused, "production {number}: {other:?}");
        }
    }
}

#[test]
fn every_build_of_another_number_is_refused() {
    let grammar = page_grammar().stream();
    let records = page_templates().records();
    let is_build = |&at: &usize| records[at][..2] == [5, 0];
    let builds: Vec<usize> = (0..records.len()).filter(is_build).collect();
    assert_eq!(builds.len(), 621);
    for at in builds {
        let build = records[at];
        let number = u16::from_le_bytes([build[2], build[3]]);
        for other in [number ^ 256, number ^ 512, number % 256, 700, number + 700] {
            let [b0, b1] = other.to_le_bytes();
            let [.., c0, c1, d0, d1] = build;
            let node = [5, 0, b0, b1, c0, c1, d0, d1];
            let refused = match other {
                _ if other == number => [0; 5],
                // Of another nonterminal, or none.
                ..700 => [7, 2, at as u64, 0, 0],
                _ => [5, 2, at as u64, 0, 0],
            };
            let fields = checked(&grammar, &with(&records, TEMPLATES, at, node));
            assert_eq!(fields, refused, "{other} instead of {number}");
        }
    }
}

/// Keywords of nonterminal 1 in a row, as many as a stream holds, each built once, the last first.
#[test]
fn thousands_of_productions_are_rendered() {
    const COUNT: u16 = 2_680;
    let mut grammar = Grammar::new();
    for number in 0..COUNT {
        grammar.production(1, [keyword(format!("<{number}>"))]);
    }
    let page = grammar.production(0, [Element::Repetition(1)]);
    let mut templates = Templates::new();
    let yes_no = templates.yes_no();
    let builds = (0..COUNT).rev().map(|number| Node::build(number, []));
    templates.template(0, [yes_no], Node::build(page, [Node::sequence(builds)]));
    let streams = Streams::of(&grammar, &templates, &Value::YesNo(true));
    let (fields, text) = rendered(&streams);
    assert_eq!(fields[..4], [0, 0, 0, u64::from(COUNT) + 2]);
    let all: String = (0..COUNT)
        .rev()
        .map(|number| format!("<{number}>"))
        .collect();
    assert_eq!(text, all);
}
