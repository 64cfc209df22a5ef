//! A podcast feed: an RSS 2.0 channel with items and marks in them, many with Greek titles.

use build::{Element, Grammar, Node, Path, Templates, Value};
use trials::generate::Streams;

/// Records of a stream of 128 blocks.
const FULL: usize = 128 * 63;

/// Nonterminals of the feed's grammar.
const CHANNEL: u16 = 0;
const ITEM: u16 = 1;
const MARK: u16 = 2;
const RATING: u16 = 3;

/// Classes: titles and notes, addresses, digits and colons, dates; and titles and notes, escaped.
const TITLE: u16 = 0;
const ADDRESS: u16 = 1;
const COUNT: u16 = 2;
const DATE: u16 = 3;
const ESCAPED_TITLE: u16 = 4;

/// A feed whose value takes `scale` quarters of 128 blocks.
pub fn feed(scale: usize) -> Streams {
    let item = item_elements("psc:chapters", Element::Repetition(MARK));
    of(grammar(item, mark_elements()), scale)
}

/// The same with escaped titles and notes.
pub fn with_entities(scale: usize) -> Streams {
    let item = item_elements("psc:chapters", Element::Repetition(MARK));
    let mut grammar = grammar(item, mark_elements());
    assert_eq!(grammar.escaped(TITLE), ESCAPED_TITLE);
    for production in &mut grammar.productions {
        for element in &mut production.elements {
            if matches!(element, Element::Class(TITLE)) {
                *element = Element::Class(ESCAPED_TITLE);
            }
        }
    }
    of(grammar, scale)
}

/// The same with each item's marks as a line with commas.
pub fn with_commas(scale: usize) -> Streams {
    let item = item_elements("itunes:summary", Element::separated(MARK, ", "));
    let mark = vec![Element::Class(COUNT), keyword(" "), Element::Class(TITLE)];
    of(grammar(item, mark), scale)
}

fn of(grammar: Grammar, scale: usize) -> Streams {
    Streams::of(&grammar, &templates(), &value(FULL * scale / 4))
}

fn keyword(text: &str) -> Element {
    Element::keyword(text)
}

fn grammar(item: Vec<Element>, mark: Vec<Element>) -> Grammar {
    let mut grammar = Grammar::new();
    let plain = [
        (0x20, 0x21),
        (0x23, 0x25),
        (0x27, 0x3B),
        (0x3D, 0x3D),
        (0x3F, 0x7E),
    ];
    let greek = [
        (0xA0, 0xFF),
        (0x370, 0x3FF),
        (0x1F00, 0x1FFF),
        (0x2010, 0x2027),
    ];
    grammar.class(1, 400, &[&plain[..], &greek[..]].concat());
    grammar.class(
        1,
        200,
        &[(0x2D, 0x3A), (0x41, 0x5A), (0x61, 0x7A), (0x5F, 0x5F)],
    );
    grammar.class(1, 12, &[(0x30, 0x3A)]);
    grammar.class(
        1,
        40,
        &[(0x20, 0x20), (0x2B, 0x3A), (0x41, 0x5A), (0x61, 0x7A)],
    );
    grammar.production(CHANNEL, channel_elements());
    grammar.production(ITEM, item);
    grammar.production(MARK, mark);
    grammar.production(RATING, [keyword("<itunes:explicit>true</itunes:explicit>")]);
    grammar.production(
        RATING,
        [keyword("<itunes:explicit>false</itunes:explicit>")],
    );
    grammar
}

/// The channel: its title, its address and its items.
fn channel_elements() -> Vec<Element> {
    vec![
        keyword("<?xml version=\"1.0\" encoding=\"UTF-8\"?>\n<rss version=\"2.0\""),
        keyword(" xmlns:itunes=\"http://www.itunes.com/dtds/podcast-1.0.dtd\""),
        keyword(" xmlns:psc=\"http://podlove.org/simple-chapters\"><channel>\n<title>"),
        Element::Class(TITLE),
        keyword("</title>\n<link>"),
        Element::Class(ADDRESS),
        keyword("</link>\n"),
        Element::Repetition(ITEM),
        keyword("</channel></rss>\n"),
    ]
}

/// An item: texts, its recording, a rating and, in an element of this name, its marks.
fn item_elements(name: &str, marks: Element) -> Vec<Element> {
    vec![
        keyword("<item><title>"),
        Element::Class(TITLE),
        keyword("</title><description>"),
        Element::Class(TITLE),
        keyword("</description><guid isPermaLink=\"false\">"),
        Element::Class(ADDRESS),
        keyword("</guid><pubDate>"),
        Element::Class(DATE),
        keyword("</pubDate><enclosure url=\""),
        Element::Class(ADDRESS),
        keyword("\" length=\""),
        Element::Class(COUNT),
        keyword("\" type=\"audio/mpeg\"/>"),
        Element::Nonterminal(RATING),
        keyword(&format!("\n<{name}>")),
        marks,
        keyword(&format!("</{name}>\n</item>\n")),
    ]
}

/// A mark: when it starts and what it is called.
fn mark_elements() -> Vec<Element> {
    vec![
        keyword("<psc:chapter start=\""),
        Element::Class(COUNT),
        keyword("\" title=\""),
        Element::Class(TITLE),
        keyword("\"/>"),
    ]
}

fn templates() -> Templates {
    let mut templates = Templates::new();
    let [title, address, count, date] = [TITLE, ADDRESS, COUNT, DATE].map(|c| templates.text(c));
    let yes_no = templates.yes_no();
    let mark = templates.record([count, title]);
    let marks = templates.list(mark);
    let item = templates.record([title, title, address, date, address, count, yes_no, marks]);
    let items = templates.list(item);
    let channel = templates.record([title, address, items]);
    let whole = Path::variable(0);
    let place = |path: &Path, field| Node::place(path.clone().field(field));
    let each_item = Node::each(whole.clone().field(2), Node::expand(1, [Path::variable(1)]));
    let body = Node::build(
        0,
        [
            place(&whole, 0),
            place(&whole, 1),
            Node::sequence([each_item]),
        ],
    );
    templates.template(CHANNEL, [channel], body);
    let entry = Path::variable(1);
    let mark_node = Node::build(2, [place(&entry, 0), place(&entry, 1)]);
    let mark_nodes = Node::sequence([Node::each(whole.clone().field(7), mark_node)]);
    let rating = Node::either(
        whole.clone().field(6),
        Node::build(3, []),
        Node::build(4, []),
    );
    let mut children: Vec<Node> = (0..6).map(|field| place(&whole, field)).collect();
    children.extend([rating, mark_nodes]);
    templates.template(ITEM, [item], Node::build(1, children));
    templates
}

const TITLES: [&str; 6] = [
    "Ὀδυσσεύς: ἡ ἐπιστροφὴ στὴν Ἰθάκη",
    "Salt and rope, a night on the quay",
    "Το λιμάνι του Πειραιά και οι άνθρωποί του",
    "What the lighthouse keeper wrote down",
    "Μια βραδιά με ρεμπέτικα στη Σύρο",
    "An hour with the tide tables",
];

const NOTES: [&str; 4] = [
    "Recorded on board; with thanks to the crew.",
    "Ο καπετάνιος διηγείται τον πρώτο του χειμώνα.",
    "Two guests, one map and a storm that never came.",
    "Notes and links are on the page of the series.",
];

fn item(number: usize) -> Value {
    let mark = |part: usize| {
        let title = ["Opening", "Η θάλασσα", "Letters", "Το τέλος"][(number + part) % 4];
        let start = format!("00:{:02}:{:02}", 9 * part, (7 * number + part) % 60);
        Value::record([Value::text(start), Value::text(title)])
    };
    let day = ["Mon", "Tue", "Wed", "Thu", "Fri", "Sat", "Sun"][number % 7];
    let date = format!("{day}, {:02} Mar 2025 06:30:00 +0000", 1 + number % 28);
    Value::record([
        Value::text(TITLES[number % TITLES.len()]),
        Value::text(NOTES[number % NOTES.len()]),
        Value::text(format!("series-7-episode-{number}")),
        Value::text(date),
        Value::text(format!("https://media.example/7/{number}/audio.mp3")),
        Value::text(format!("{}", 10_000_000 + 7_919 * number)),
        Value::YesNo(number.is_multiple_of(9)),
        Value::list((0..2 + number % 3).map(mark)),
    ])
}

/// As many items as so many records hold.
fn value(records: usize) -> Value {
    let mut items = Vec::new();
    let mut used = 12;
    loop {
        let item = item(items.len());
        used += item.records().len();
        if used > records {
            break;
        }
        items.push(item);
    }
    Value::record([
        Value::text("Ἡ θάλασσα, the sea"),
        Value::text("https://feeds.example/7"),
        Value::List(items),
    ])
}
