//! Request g from end to end: a feed whose episodes are audio or video, with different fields, is
//! checked and rendered by both machines, and its text given to the recogniser. Arms are left out,
//! added and exchanged, and the cases of its value turned into others.

use build::{blocks, escaped, Record, VALUE};
use build::{Element, Grammar, Node, Path, Templates, Value};
use recogniser::{start, BUDGET};
use trials::compare::{self, Call};
use trials::generate::Streams;
use trials::{Fields, Reference, SECOND};

/// The nonterminals.
const FEED: u16 = 0;
const ITEM: u16 = 1;
const FILE: u16 = 2;
const CHAPTER: u16 = 3;
const CAPTIONS: u16 = 4;

/// The productions.
const WHOLE: u16 = 0;
const ENTRY: u16 = 1;
const AUDIO: u16 = 2;
const VIDEO: u16 = 3;
const MARK: u16 = 4;
const WITH_CAPTIONS: u16 = 5;
const WITHOUT: u16 = 6;
const TEXT_ONLY: u16 = 7;

fn keyword(text: &str) -> Element {
    Element::keyword(text)
}

/// Lines (class 0, escaped 1), addresses (2, escaped 3) and numbers (4).
fn feed_grammar() -> Grammar {
    let mut grammar = Grammar::new();
    let line = grammar.class(1, 80, &[(0x20, 0x7E), (0xA0, 0x17F), (0x370, 0x3FF)]);
    let line = Element::Class(grammar.escaped(line));
    let address = grammar.class(1, 200, &[(0x21, 0x7E)]);
    let address = Element::Class(grammar.escaped(address));
    let number = Element::Class(grammar.class(1, 9, &[(0x30, 0x39)]));
    let items = Element::Repetition(ITEM);
    let head = [keyword("<channel><title>"), line.clone()];
    let rest = [keyword("</title>\n"), items, keyword("</channel>\n")];
    grammar.production(FEED, head.into_iter().chain(rest));
    let title = [keyword("<item><title>"), line.clone(), keyword("</title>")];
    let file = [Element::Nonterminal(FILE), keyword("</item>\n")];
    grammar.production(ITEM, title.into_iter().chain(file));
    let url = |kind: &str| {
        let start = keyword(&format!("<enclosure type=\"{kind}\" url=\""));
        [start, address.clone(), keyword("\" length=\"")]
    };
    let chapters = Element::separated(CHAPTER, ", ");
    let rest = [
        number.clone(),
        keyword("\"/><p>"),
        chapters,
        keyword("</p>"),
    ];
    grammar.production(FILE, url("audio/mpeg").into_iter().chain(rest));
    let size = [number.clone(), keyword("\" height=\""), number];
    let rest = [keyword("\"/>"), Element::Nonterminal(CAPTIONS)];
    let rest = size.into_iter().chain(rest);
    grammar.production(FILE, url("video/mp4").into_iter().chain(rest));
    grammar.production(CHAPTER, [line.clone()]);
    grammar.production(CAPTIONS, [keyword("<captions/>")]);
    grammar.production(CAPTIONS, []);
    grammar.production(FILE, [keyword("<p>"), line, keyword("</p>")]);
    grammar
}

/// The types: 0 a line, 1 an address, 2 a number, 3 yes/no, 4 lines, 5 what is heard, 6 what is seen.
fn types() -> Templates {
    let mut templates = Templates::new();
    let line = templates.text(0);
    let address = templates.text(2);
    let number = templates.text(4);
    let yes_no = templates.yes_no();
    let lines = templates.list(line);
    templates.record([address, number, lines]);
    templates.record([address, number, number, yes_no]);
    templates
}

const LINE: u16 = 0;
const HEARD: u16 = 5;
const SEEN: u16 = 6;

/// The arm of what is heard: its chapters are a loop in the arm, in the loop of the episodes.
fn audio() -> Node {
    let field = |number| Path::variable(2).field(number);
    let chapter = Node::build(MARK, [Node::place(Path::variable(3))]);
    let chapters = Node::sequence([Node::each(field(2), chapter)]);
    Node::build(
        AUDIO,
        [Node::place(field(0)), Node::place(field(1)), chapters],
    )
}

/// The arm of what is seen passes its content to template 1.
fn video() -> Node {
    Node::expand(1, [Path::variable(2)])
}

/// A set whose episodes have a title and are of one of these cases, with these arms.
fn feed_templates(cases: &[u16], arms: Vec<Node>) -> Templates {
    let mut templates = types();
    let variant = templates.variant(cases.iter().copied());
    let episode = templates.record([LINE, variant]);
    let episodes = templates.list(episode);
    let whole = templates.record([LINE, episodes]);
    let title = Node::place(Path::variable(1).field(0));
    let file = Node::by_case(Path::variable(1).field(1), arms);
    let each = Node::each(
        Path::variable(0).field(1),
        Node::build(ENTRY, [title, file]),
    );
    let title = Node::place(Path::variable(0).field(0));
    let body = Node::build(WHOLE, [title, Node::sequence([each])]);
    templates.template(FEED, [whole], body);
    let field = |number| Path::variable(0).field(number);
    let places = (0..3).map(|number| Node::place(field(number)));
    let captions = [WITH_CAPTIONS, WITHOUT].map(|production| Node::build(production, []));
    let [yes, no] = captions;
    let children = places.chain([Node::either(field(3), yes, no)]);
    templates.template(FILE, [SEEN], Node::build(VIDEO, children));
    templates
}

fn both() -> Templates {
    feed_templates(&[HEARD, SEEN], vec![audio(), video()])
}

const TITLE: &str = "Salt & Rope";
const EPISODES: usize = 60;

/// Every third episode is seen; the others have none, one or more chapters.
fn is_seen(number: usize) -> bool {
    number % 3 == 2
}

fn chapters(number: usize) -> Vec<String> {
    let chapter = |chapter| format!("{number}.{chapter} <Σύρος>");
    (0..number % 4).map(chapter).collect()
}

fn address(number: usize) -> String {
    format!("https://example.org/{number}?a=1&b=2")
}

fn feed_value() -> Value {
    let episode = |number: usize| {
        let text = |text: String| Value::text(text);
        let file = [text(address(number)), text((number * 1_000).to_string())];
        let content = match is_seen(number) {
            true => {
                let rest = [text("720".into()), Value::YesNo(number.is_multiple_of(2))];
                Value::case(1, Value::record(file.into_iter().chain(rest)))
            }
            false => {
                let lines = Value::list(chapters(number).into_iter().map(text));
                Value::case(0, Value::record(file.into_iter().chain([lines])))
            }
        };
        Value::record([text(format!("{number} & more")), content])
    };
    Value::record([Value::text(TITLE), Value::list((0..EPISODES).map(episode))])
}

/// The feed as one would write it without a grammar.
fn expected() -> String {
    let entities = |text: &str| String::from_utf8(escaped(text.as_bytes())).expect("a text");
    let mut feed = format!("<channel><title>{}</title>\n", entities(TITLE));
    for number in 0..EPISODES {
        let kind = if is_seen(number) {
            "video/mp4"
        } else {
            "audio/mpeg"
        };
        let url = entities(&address(number));
        feed += &format!("<item><title>{number} &amp; more</title>");
        feed += &format!(
            "<enclosure type=\"{kind}\" url=\"{url}\" length=\"{}",
            number * 1_000
        );
        if is_seen(number) {
            feed += "\" height=\"720\"/>";
            feed += if number.is_multiple_of(2) {
                "<captions/>"
            } else {
                ""
            };
        } else {
            let chapters = chapters(number).join(", ");
            feed += &format!("\"/><p>{}</p>", entities(&chapters));
        }
        feed += "</item>\n";
    }
    feed + "</channel>\n"
}

/// What both machines answer to a check.
#[track_caller]
fn checked(templates: &Templates) -> Fields {
    let (grammar, templates) = (feed_grammar().stream(), templates.stream());
    compare::check(&Reference, &SECOND, &grammar, &templates)
        .unwrap_or_else(|difference| panic!("{difference}"))
}

/// The same of an evaluate call with enough of all, and the text that is left.
#[track_caller]
fn rendered(templates: &Templates, value: Vec<u8>) -> (Fields, String) {
    run(&Streams {
        grammar: feed_grammar().stream(),
        templates: templates.stream(),
        value,
    })
}

#[track_caller]
fn run(streams: &Streams) -> (Fields, String) {
    let (fields, text) = compare::rendered(&Reference, &SECOND, streams.parts())
        .unwrap_or_else(|difference| panic!("{difference}"));
    (fields, String::from_utf8(text).expect("a text"))
}

#[test]
fn a_feed_of_both_is_rendered() {
    assert_eq!(checked(&both()), [0; 5]);
    let (fields, text) = rendered(&both(), feed_value().stream());
    assert_eq!(text, expected());
    // The body, its title, the sequence and the for; for each episode the build, its title, the match,
    // and the arm: of a build, two places, a sequence, a for and two steps a chapter, or of an expand,
    // a build, three places, an if and a build.
    let arm = |number: usize| match is_seen(number) {
        true => 7,
        false => 5 + 2 * chapters(number).len(),
    };
    let steps: usize = (0..EPISODES).map(|number| 3 + arm(number)).sum();
    assert_eq!(fields[..4], [0, 0, 0, 4 + steps as u64]);
}

#[test]
fn the_recogniser_takes_its_text_and_no_other() {
    let grammar = recogniser::Grammar::read(&feed_grammar().stream()).expect("a grammar");
    let feed = start(&both().stream()).expect("a template 0");
    let derives = |text: &str| grammar.derives(feed, text.as_bytes(), BUDGET);
    let (_, text) = rendered(&both(), feed_value().stream());
    assert_eq!(derives(&text), Some(true));
    let changes = [
        ("video/mp4", "audio/mpeg"),
        ("audio/mpeg", "video/mp4"),
        ("\" height=\"720\"/>", "\"/>"),
        ("\"/><p>", "\"/>"),
        ("<captions/>", "<captions/><captions/>"),
        ("a=1&amp;b", "a=1&b"),
    ];
    for (right, wrong) in changes {
        let changed = text.replacen(right, wrong, 1);
        assert_ne!(changed, text, "{right} isn't there");
        assert_eq!(derives(&changed), Some(false), "{wrong}");
    }
}

/// The records of the nodes of form 7.
fn matches(records: &[Record]) -> Vec<usize> {
    let is_match = |&at: &usize| records[at][..2] == [5, 7];
    (0..records.len()).filter(is_match).collect()
}

#[test]
fn an_arm_for_each_case_in_order() {
    let cases = [HEARD, SEEN];
    let at = matches(&both().records())[0] as u64;
    let text_only = || Node::build(TEXT_ONLY, [Node::literal("none")]);
    let refused = [
        vec![],
        vec![audio()],
        vec![video()],
        vec![audio(), video(), text_only()],
    ];
    for arms in refused {
        let fields = checked(&feed_templates(&cases, arms));
        assert_eq!(fields, [7, 2, at, 0, 0]);
    }
    // Exchanged, the first arm expands with what is heard: itself behind the match and its path.
    let exchanged = feed_templates(&cases, vec![video(), audio()]);
    assert_eq!(checked(&exchanged), [7, 2, at + 2, 0, 0]);
    // The first arm twice: of the second one the field that isn't a list, which the for holds. It stands
    // behind the first arm of eleven records, and a build, two places with their paths and a sequence.
    let twice = feed_templates(&cases, vec![audio(), audio()]);
    assert_eq!(checked(&twice), [7, 2, at + 2 + 11 + 6, 0, 0]);
    // An arm that isn't taken by any episode is judged, too.
    let lone = feed_templates(&cases, vec![audio(), text_only()]);
    assert_eq!(checked(&lone), [0; 5]);
}

/// A third case is added behind the others: old values render as they did, and new ones by its arm.
#[test]
fn a_case_is_added() {
    let text_only = Node::build(TEXT_ONLY, [Node::place(Path::variable(2))]);
    let arms = vec![audio(), video(), text_only];
    let templates = feed_templates(&[HEARD, SEEN, LINE], arms);
    assert_eq!(checked(&templates), [0; 5]);
    let (fields, text) = rendered(&templates, feed_value().stream());
    assert_eq!((fields[0], text), (0, expected()));
    let third = Value::record([Value::text("t"), Value::case(2, Value::text("a < b"))]);
    let value = Value::record([Value::text(TITLE), Value::list([third])]);
    let (fields, text) = rendered(&templates, value.stream());
    assert_eq!(fields[0], 0);
    assert!(text.contains("<item><title>t</title><p>a &lt; b</p></item>"));
    // The old set has no such case. It is record 8: two records, two texts with three units and the
    // list stand before it.
    let (fields, _) = rendered(&both(), value.stream());
    assert_eq!(fields, [8, 3, 8, 0, 0]);
}

/// Each case of the value in turn is another one, or one that isn't there.
#[test]
fn every_case_of_another_number_is_refused() {
    let records = feed_value().records();
    let templates = both();
    let mut tried = 0;
    let mut at = 0;
    while at < records.len() {
        let head = records[at];
        if head[0] == 5 {
            tried += 1;
            for number in [1 - head[1], 2, 3, 255] {
                let mut changed = records.clone();
                changed[at][1] = number;
                let (fields, _) = rendered(&templates, blocks(VALUE, &changed));
                // The content has another number of fields than the other case.
                let place = if number < 2 { at + 1 } else { at };
                assert_eq!(fields, [8, 3, place as u64, 0, 0], "record {at}: {number}");
            }
        }
        let bytes = u16::from_le_bytes([head[2], head[3]]);
        at += match head[0] {
            1 => 1 + usize::from(bytes).div_ceil(8),
            _ => 1,
        };
    }
    assert_eq!(tried, EPISODES);
}

/// Every fuel of a short feed: no run ends between a match and the node that it is stopped at.
#[test]
fn every_fuel_of_a_short_feed() {
    let Value::Record(fields) = feed_value() else {
        panic!("a record")
    };
    let [title, Value::List(episodes)] = &fields[..] else {
        panic!("a title and a list")
    };
    let value = Value::record([title.clone(), Value::list(episodes[..6].iter().cloned())]);
    let streams = Streams::of(&feed_grammar(), &both(), &value);
    let mut stops = 0;
    for fuel in 0.. {
        let call = Call {
            fuel,
            out: 4_000,
            scratch: 4_800,
        };
        let fields = compare::evaluate(&Reference, &SECOND, streams.parts(), call)
            .unwrap_or_else(|difference| panic!("{difference}"));
        match fields[0] {
            10 => assert_eq!(fields[3], u64::from(fuel)),
            number => {
                assert_eq!((number, fields[3]), (0, u64::from(fuel)));
                break;
            }
        }
        stops += 1;
    }
    assert!(stops > 50);
}

const CASES: usize = 256;

/// A list of variants of so many cases, each with an arm that builds the production of its number, or
/// the last.
fn numbered(count: usize) -> Templates {
    let mut templates = Templates::new();
    let yes_no = templates.yes_no();
    let variant = templates.variant(vec![yes_no; count]);
    let list = templates.list(variant);
    let arms = (0..count).map(|number| Node::build(number.min(CASES - 1) as u16, []));
    let item = Node::by_case(Path::variable(1), arms);
    let items = Node::sequence([Node::each(Path::variable(0), item)]);
    templates.template(0, [list], Node::build(CASES as u16, [items]));
    templates
}

/// A variant of as many cases as may be, each of them taken once; of one less, and of one too many.
#[test]
fn every_case_of_256_is_rendered() {
    let mut grammar = Grammar::new();
    for number in 0..CASES {
        grammar.production(1, [keyword(&format!("<{number}>"))]);
    }
    grammar.production(0, [Element::Repetition(1)]);
    let case = |number: usize| Value::case(number as u8, Value::YesNo(true));
    let value = Value::list((0..CASES).rev().map(case));
    let of = |count| run(&Streams::of(&grammar, &numbered(count), &value));
    let all: String = (0..CASES)
        .rev()
        .map(|number| format!("<{number}>"))
        .collect();
    let (fields, text) = of(CASES);
    assert_eq!(fields[..4], [0, 0, 0, 3 + 2 * CASES as u64]);
    assert_eq!(text, all);
    assert_eq!(of(CASES - 1).0, [8, 3, 1, 0, 0]);
    assert_eq!(of(CASES + 1).0, [3, 2, 0, 0, 0]);
}
