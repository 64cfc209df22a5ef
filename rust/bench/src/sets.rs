//! The sets that are measured: the paper's example, a full-size feed, and sets made to be slow.

use build::{escaped, Element, Grammar, Node, Path, Templates, Type, Value};
use trials::generate::Streams;

use crate::podcast;

/// A family of sets by size: 4 fills the streams, 2 and 1 take a half and a quarter.
pub struct Family {
    /// What the table calls it.
    pub name: &'static str,
    /// Makes a set of a size.
    pub set: fn(usize) -> Streams,
    /// Whether growth is measured: the input and the steps grow with the size.
    pub grows: bool,
}

/// All families.
pub const FAMILIES: [Family; 33] = [
    Family {
        name: "the paper's example",
        set: |_| example(),
        grows: false,
    },
    Family {
        name: "a small feed",
        set: |_| small_feed(),
        grows: false,
    },
    Family {
        name: "podcast feed, full size",
        set: podcast::feed,
        grows: true,
    },
    Family {
        name: "podcast feed, chapters with commas",
        set: podcast::with_commas,
        grows: true,
    },
    Family {
        name: "podcast feed, escaped titles",
        set: podcast::with_entities,
        grows: true,
    },
    Family {
        name: "titles with one of the five, plain class",
        set: |scale| titles(FEW, false, scale),
        grows: true,
    },
    Family {
        name: "titles with one of the five, escaped class",
        set: |scale| titles(FEW, true, scale),
        grows: true,
    },
    Family {
        name: "titles of the five alone, plain class",
        set: |scale| titles(MANY, false, scale),
        grows: true,
    },
    Family {
        name: "titles of the five alone, escaped class",
        set: |scale| titles(MANY, true, scale),
        grows: true,
    },
    Family {
        name: "one text of 64,504 letters, plain class",
        set: |scale| one_text(EUROPEAN, "o", false, scale),
        grows: true,
    },
    Family {
        name: "one text of 64,504 letters, escaped class",
        set: |scale| one_text(EUROPEAN, "o", true, scale),
        grows: true,
    },
    Family {
        name: "one text of 64,504 ampersands, escaped class",
        set: |scale| one_text(EUROPEAN, "&", true, scale),
        grows: true,
    },
    Family {
        name: "one text of 64,504 quotes, escaped class",
        set: |scale| one_text(EUROPEAN, "\"", true, scale),
        grows: true,
    },
    Family {
        name: "one text of 21,500 characters of three bytes, plain class",
        set: |scale| one_text(JAPANESE, "夜の物語", false, scale),
        grows: true,
    },
    Family {
        name: "256 classes of many ranges",
        set: many_classes,
        grows: true,
    },
    Family {
        name: "one class of thousands of ranges",
        set: many_ranges,
        grows: true,
    },
    Family {
        name: "many classes, and one of thousands of ranges",
        set: many_classes_and_ranges,
        grows: true,
    },
    Family {
        name: "256 productions of one nonterminal",
        set: many_productions,
        grows: true,
    },
    Family {
        name: "2,000 productions of many nonterminals",
        set: many_nonterminals,
        grows: true,
    },
    Family {
        name: "last of 255 fields, five steps deep",
        set: many_fields,
        grows: true,
    },
    Family {
        name: "thousands of one-character texts",
        set: |scale| one_character_texts(Element::Repetition(1), scale),
        grows: true,
    },
    Family {
        name: "thousands of one-character texts, commas between",
        set: |scale| one_character_texts(Element::separated(1, ", "), scale),
        grows: true,
    },
    Family {
        name: "hundreds of texts, 1,200 bytes between",
        set: long_separators,
        grows: true,
    },
    Family {
        name: "200 levels of nodes",
        set: deep_bodies,
        grows: true,
    },
    Family {
        name: "200 levels of values",
        set: deep_values,
        grows: true,
    },
    Family {
        name: "thousands of items in one sequence",
        set: wide_sequence,
        grows: true,
    },
    Family {
        name: "thousands of places, five steps each",
        set: deep_paths,
        grows: true,
    },
    Family {
        name: "1,600 small templates",
        set: many_templates,
        grows: true,
    },
    Family {
        name: "hundreds of expands, eight arguments each",
        set: many_arguments,
        grows: true,
    },
    Family {
        name: "a thousand ifs and loops",
        set: many_branches,
        grows: true,
    },
    Family {
        name: "episodes, audio or video",
        set: audio_or_video,
        grows: true,
    },
    Family {
        name: "thousands of cases, the last of 256 arms",
        set: last_arms,
        grows: true,
    },
    Family {
        name: "loops in loops, a small input",
        set: |_| nested_loops(),
        grows: false,
    },
];

fn keyword(text: &str) -> Element {
    Element::keyword(text)
}

/// Nonterminal 0: `[` 1* `]`. Nonterminal 1: `<` class 0 `>`.
fn entries(least: u16, most: u16, ranges: &[(u32, u32)]) -> Grammar {
    repeated_entries(Element::Repetition(1), least, most, ranges)
}

/// The same with another repetition of nonterminal 1.
fn repeated_entries(repetition: Element, least: u16, most: u16, ranges: &[(u32, u32)]) -> Grammar {
    let mut grammar = Grammar::new();
    grammar.class(least, most, ranges);
    grammar.production(0, [keyword("["), repetition, keyword("]")]);
    grammar.production(1, [keyword("<"), Element::Class(0), keyword(">")]);
    grammar
}

/// Template 0 on a list of texts of a class: every one of them as an entry.
fn entries_templates(class: u16) -> Templates {
    let mut templates = Templates::new();
    let title = templates.text(class);
    let titles = templates.list(title);
    let entry = Node::build(1, [Node::place(Path::variable(1))]);
    let row = Node::sequence([Node::each(Path::variable(0), entry)]);
    templates.template(0, [titles], Node::build(0, [row]));
    templates
}

fn example() -> Streams {
    let grammar = entries(1, 4, &[(0x61, 0x7A), (0x370, 0x3FF)]);
    let value = Value::list([Value::text("ab"), Value::text("αβγδ")]);
    Streams::of(&grammar, &entries_templates(0), &value)
}

/// A feed of three entries: streams of a block or two.
fn small_feed() -> Streams {
    let mut grammar = Grammar::new();
    let plain = [(0x20, 0x25), (0x27, 0x3B), (0x3D, 0x3D), (0x3F, 0x7E)];
    let line = grammar.class(1, 80, &[&plain[..], &[(0x370, 0x3FF)]].concat());
    let text = || Element::Class(line);
    let (title, link) = (keyword("</title>"), keyword("</title><link>"));
    let feed = [
        keyword("<rss version=\"2.0\"><channel><title>"),
        text(),
        title,
    ];
    let entries = [Element::Repetition(1), keyword("</channel></rss>\n")];
    grammar.production(0, feed.into_iter().chain(entries));
    let (open, close) = (keyword("<item><title>"), keyword("</link></item>\n"));
    grammar.production(1, [open, text(), link, text(), close]);
    let mut templates = Templates::new();
    let text = templates.text(line);
    let entry = templates.record([text, text]);
    let entries = templates.list(entry);
    let whole = templates.record([text, entries]);
    let place = |variable, field| Node::place(Path::variable(variable).field(field));
    let item = Node::build(1, [place(1, 0), place(1, 1)]);
    let row = Node::sequence([Node::each(Path::variable(0).field(1), item)]);
    templates.template(0, [whole], Node::build(0, [place(0, 0), row]));
    let titles = [
        "An hour with the tide tables",
        "Μια βραδιά στη Σύρο",
        "Salt",
    ];
    let items =
        titles.map(|title| Value::record([title, "https://feeds.example/7"].map(Value::text)));
    let value = Value::record([Value::text("Evenings"), Value::list(items)]);
    Streams::of(&grammar, &templates, &value)
}

/// Titles of some thirty characters: with one that is escaped, and with no other.
const FEW: &str = "A night of salt & rope ashore";
const MANY: &str = "<'&'><\"&\"><'&'><\"&\"><'&'><\"";

/// Characters of one and two bytes, and of three.
const EUROPEAN: &[(u32, u32)] = &[(0x20, 0x7E), (0x370, 0x3FF)];
const JAPANESE: &[(u32, u32)] = &[(0x3040, 0x30FF), (0x4E00, 0x9FFF)];

/// What a lexeme of class 0 is asked for as: plain, or escaped.
fn asked(grammar: &mut Grammar, escaped: bool) -> Element {
    Element::Class(match escaped {
        true => grammar.escaped(0),
        false => 0,
    })
}

/// Entries of one title, again and again.
fn titles(title: &str, escaped: bool, scale: usize) -> Streams {
    let mut grammar = entries(1, 40, EUROPEAN);
    let element = asked(&mut grammar, escaped);
    grammar.productions[1].elements[1] = element;
    let value = Value::list(vec![Value::text(title); 400 * scale]);
    Streams::of(&grammar, &entries_templates(0), &value)
}

/// One text of some characters again and again, up to all that 128 blocks hold.
fn one_text(ranges: &[(u32, u32)], characters: &str, escaped: bool, scale: usize) -> Streams {
    let mut grammar = Grammar::new();
    grammar.class(0, 65_535, ranges);
    let element = asked(&mut grammar, escaped);
    grammar.production(0, [element]);
    let mut templates = Templates::new();
    let text = templates.text(0);
    templates.template(0, [text], Node::build(0, [Node::place(Path::variable(0))]));
    let value = Value::text(characters.repeat(16_126 * scale / characters.len()));
    Streams::of(&grammar, &templates, &value)
}

/// Texts for the unescape call: escaped forms of 64,504 characters.
pub fn escaped_texts() -> [(&'static str, Vec<u8>); 4] {
    let long = |text: &str| escaped(text.repeat(64_504 / text.len()).as_bytes());
    [
        ("letters", long("o")),
        ("titles with one of the five", long(FEW)),
        ("ampersands", long("&")),
        ("quotes", long("\"")),
    ]
}

/// 64 to 256 classes, each of 28 ranges of one character from high to low, and texts of them.
fn many_classes(scale: usize) -> Streams {
    let count = 64 * scale as u16;
    let mut grammar = Grammar::new();
    let mut templates = Templates::new();
    let code = |class: u16, range: u32| 0x4E00 + 64 * u32::from(class) + 2 * (28 - range);
    for class in 0..count {
        let ranges: Vec<(u32, u32)> = (0..28)
            .map(|range| (code(class, range), code(class, range)))
            .collect();
        grammar.class(0, 40, &ranges);
        templates.text(class);
    }
    let classes = (0..count).step_by(4).map(Element::Class);
    grammar.production(0, classes);
    let row = templates.record((0..count).step_by(4));
    let fields = 0..(count / 4) as u8;
    let places = fields.map(|field| Node::place(Path::variable(0).field(field)));
    templates.template(0, [row], Node::build(0, places));
    let text = |class: u16| {
        let letters: String = (0..28)
            .filter_map(|range| char::from_u32(code(class, range)))
            .collect();
        Value::text(letters)
    };
    let value = Value::record((0..count).step_by(4).map(text));
    Streams::of(&grammar, &templates, &value)
}

/// One class of up to 7,800 ranges of one character each, from high to low, and texts of its lowest.
fn many_ranges(scale: usize) -> Streams {
    let count = 1_950 * scale as u32;
    let ranges: Vec<(u32, u32)> = (0..count)
        .map(|range| 0x10000 + 2 * (count - range))
        .map(|code| (code, code))
        .collect();
    let letters: String = (1..=12)
        .filter_map(|range| char::from_u32(0x10000 + 2 * range))
        .collect();
    let value = Value::list(vec![Value::text(letters); 260 * scale]);
    Streams::of(&entries(1, 12, &ranges), &entries_templates(0), &value)
}

/// 50 to 200 classes, every other one empty, then one of up to 7,500 ranges of one character each,
/// from high to low, and long texts of its lowest, which take three bytes.
fn many_classes_and_ranges(scale: usize) -> Streams {
    let (before, count) = (50 * scale as u16, 1_875 * scale as u32);
    let code = |range: u32| 0x4E00 + 2 * range;
    let mut grammar = Grammar::new();
    for class in 0..before {
        let ranges: &[(u32, u32)] = if class % 2 == 0 { &[] } else { &[(0x61, 0x7A)] };
        grammar.class(0, 1, ranges);
    }
    let ranges: Vec<(u32, u32)> = (0..count)
        .rev()
        .map(|range| (code(range), code(range)))
        .collect();
    let class = grammar.class(1, 2_000, &ranges);
    grammar.production(0, [keyword("["), Element::Repetition(1), keyword("]")]);
    grammar.production(1, [keyword("<"), Element::Class(class), keyword(">")]);
    let letters: String = (0..1_050)
        .filter_map(|letter| char::from_u32(code(letter % 12)))
        .collect();
    let value = Value::list(vec![Value::text(letters); 5 * scale]);
    Streams::of(&grammar, &entries_templates(class), &value)
}

/// 64 to 256 productions of nonterminal 1, each built many times.
fn many_productions(scale: usize) -> Streams {
    let count = 64 * scale;
    let mut grammar = Grammar::new();
    grammar.production(0, [keyword("{"), Element::Repetition(1), keyword("}")]);
    for number in 1..count {
        grammar.production(1, [keyword(&format!("<p{number:03}/>"))]);
    }
    let mut templates = Templates::new();
    let yes_no = templates.yes_no();
    let builds = (0..1_900 * scale).map(|number| Node::build((count - 1 - number % 50) as u16, []));
    templates.template(0, [yes_no], Node::build(0, [Node::sequence(builds)]));
    Streams::of(&grammar, &templates, &Value::YesNo(true))
}

/// 500 to 2,000 productions. Nonterminal 1 has as many pieces as fit, each with a nonterminal of its own
/// below it, whose production stands as far behind. They are built from all over the row.
fn many_nonterminals(scale: usize) -> Streams {
    let pieces = 250 * scale as u16 - 1;
    let (row, close) = (Element::Repetition(1), Element::Nonterminal(0xFFFF));
    let mut grammar = Grammar::new();
    grammar.production(0, [keyword("{"), row, close]);
    for piece in 1..=pieces {
        grammar.production(1, [Element::Nonterminal(1 + piece)]);
    }
    for piece in 1..=pieces {
        grammar.production(1 + piece, [keyword(&format!("<p{piece:03}/>"))]);
    }
    let close = grammar.production(0xFFFF, [keyword("}")]);
    let mut templates = Templates::new();
    let yes_no = templates.yes_no();
    let items = (0..970 * scale).map(|number| {
        let piece = (611 * number % usize::from(pieces)) as u16 + 1;
        Node::build(piece, [Node::build(pieces + piece, [])])
    });
    let page = [Node::sequence(items), Node::build(close, [])];
    templates.template(0, [yes_no], Node::build(0, page));
    Streams::of(&grammar, &templates, &Value::YesNo(true))
}

/// 500 episodes, each with a title and a variant of two records with different fields, matched in a
/// for: what is heard has an address and a length, what is seen a width, a height and captions, too.
fn audio_or_video(scale: usize) -> Streams {
    let mut templates = Templates::new();
    let [line, yes_no] = [templates.text(0), templates.yes_no()];
    let heard = templates.record([line, line]);
    let seen = templates.record([line, line, line, line, yes_no]);
    let variant = templates.variant([heard, seen]);
    let episode = templates.record([line, variant]);
    let episodes = templates.list(episode);
    let content = |field| Path::variable(2).field(field);
    let places = |count| (0..count).map(move |field| Node::place(content(field)));
    let captions = [5, 4].map(|production| Node::build(production, []));
    let [yes, no] = captions;
    let arms = [
        Node::build(2, places(2)),
        Node::build(3, places(4).chain([Node::either(content(4), yes, no)])),
    ];
    let file = Node::by_case(Path::variable(1).field(1), arms);
    let title = Node::place(Path::variable(1).field(0));
    let each = Node::each(Path::variable(0), Node::build(1, [title, file]));
    let body = Node::build(0, [Node::sequence([each])]);
    templates.template(0, [episodes], body);
    let value = Value::list((0..125 * scale).map(episode_value));
    Streams::of(&episodes_grammar(), &templates, &value)
}

/// Nonterminal 0 is a row of 1, which has a title and a 2: an enclosure of either kind. Nonterminal 3 is
/// nothing, or captions.
fn episodes_grammar() -> Grammar {
    let mut grammar = Grammar::new();
    let line = grammar.class(1, 60, &[(0x20, 0x25), (0x27, 0x3B), (0x3F, 0x7E)]);
    let line = || Element::Class(line);
    let row = Element::Repetition(1);
    grammar.production(0, [keyword("<channel>\n"), row, keyword("</channel>\n")]);
    let title = [keyword("<item><title>"), line(), keyword("</title>")];
    let file = [Element::Nonterminal(2), keyword("</item>\n")];
    grammar.production(1, title.into_iter().chain(file));
    let url = |kind: &str| {
        let head = keyword(&format!("<enclosure type=\"{kind}\" url=\""));
        [head, line(), keyword("\" length=\""), line()]
    };
    let end = [keyword("\"/>")];
    grammar.production(2, url("audio/mpeg").into_iter().chain(end));
    let size = [keyword("\"/><media:content width=\""), line()];
    let rest = [keyword("\" height=\""), line(), keyword("\"/>")];
    let rest = size.into_iter().chain(rest);
    let video = url("video/mp4").into_iter().chain(rest);
    grammar.production(2, video.chain([Element::Nonterminal(3)]));
    grammar.production(3, []);
    grammar.production(3, [keyword("<media:subTitle/>")]);
    grammar
}

/// Every third episode is seen.
fn episode_value(number: usize) -> Value {
    let address = format!("https://example.org/{number:04}");
    let file = [Value::text(address), Value::text("48213760")];
    let content = match number % 3 {
        2 => {
            let size = [Value::text("1280"), Value::text("720")];
            let rest = size.into_iter().chain([Value::YesNo(number % 2 == 1)]);
            Value::case(1, Value::record(file.into_iter().chain(rest)))
        }
        _ => Value::case(0, Value::record(file)),
    };
    let title = Value::text(format!("{number}. A night by the sea"));
    Value::record([title, content])
}

/// Thousands of cases of a variant of 256, matched in a for, of which all but the first are the last.
fn last_arms(scale: usize) -> Streams {
    let grammar = entries(1, 4, &[(0x61, 0x7A)]);
    let mut templates = Templates::new();
    let yes_no = templates.yes_no();
    let variant = templates.variant([yes_no; 256]);
    let list = templates.list(variant);
    let arm = Node::build(1, [Node::literal("a")]);
    let each = Node::each(
        Path::variable(0),
        Node::by_case(Path::variable(1), vec![arm; 256]),
    );
    let body = Node::build(0, [Node::sequence([each])]);
    templates.template(0, [list], body);
    let case = |number: usize| {
        let last = if number == 0 { 0 } else { 255 };
        Value::case(last, Value::YesNo(true))
    };
    let value = Value::list((0..1_000 * scale).map(case));
    Streams::of(&grammar, &templates, &value)
}

/// Five records of 255 fields in one another, of which places read the last of the last.
fn many_fields(scale: usize) -> Streams {
    let grammar = entries(1, 4, &[(0x61, 0x7A), (0x370, 0x3FF)]);
    let mut templates = Templates::new();
    let yes_no = templates.yes_no();
    let mut kind = templates.text(0);
    let mut value = Value::text("αω");
    for _ in 0..5 {
        let mut fields = vec![yes_no; 254];
        fields.push(kind);
        kind = templates.add(Type::Record(fields));
        let mut values = vec![Value::YesNo(false); 254];
        values.push(value);
        value = Value::Record(values);
    }
    let list = templates.list(kind);
    let deep = Path {
        variable: 1,
        fields: vec![254; 5],
    };
    let entry = Node::build(1, [Node::place(deep)]);
    let each = Node::each(Path::variable(0), entry);
    let row = Node::sequence(vec![each; 300 * scale]);
    templates.template(0, [list], Node::build(0, [row]));
    let value = Value::list(vec![value; scale + 1]);
    Streams::of(&grammar, &templates, &value)
}

fn one_character_texts(repetition: Element, scale: usize) -> Streams {
    letters(repetition, 1_000 * scale)
}

/// Separators of several blocks, and a short text before each.
fn long_separators(scale: usize) -> Streams {
    let separator = Element::separated(1, "; then: ".repeat(150));
    letters(separator, 100 * scale)
}

/// So many texts of one character each, as entries.
fn letters(repetition: Element, count: usize) -> Streams {
    let grammar = repeated_entries(repetition, 1, 1, &[(0x61, 0x7A), (0x370, 0x3FF)]);
    let letters = ["a", "β", "z", "ω"];
    let texts = (0..count).map(|number| Value::text(letters[number % 4]));
    Streams::of(&grammar, &entries_templates(0), &Value::list(texts))
}

/// A body of 199 levels, entered for each item of a list, and more such bodies to check.
fn deep_bodies(scale: usize) -> Streams {
    let mut grammar = Grammar::new();
    grammar.production(0, [keyword("("), Element::Nonterminal(0), keyword(")")]);
    grammar.production(0, [keyword("{"), Element::Repetition(0), keyword("}")]);
    grammar.production(0, []);
    let chain = |levels: usize| {
        let mut node = Node::build(2, []);
        for _ in 1..levels {
            node = Node::build(0, [node]);
        }
        node
    };
    let mut templates = Templates::new();
    let yes_no = templates.yes_no();
    let list = templates.list(yes_no);
    let each = Node::each(Path::variable(0), chain(197));
    templates.template(0, [list], Node::build(1, [Node::sequence([each])]));
    for _ in 0..9 * scale {
        templates.template(0, [yes_no], chain(200));
    }
    let value = Value::list(vec![Value::YesNo(true); 50 * scale]);
    Streams::of(&grammar, &templates, &value)
}

/// Lists in lists, up to 200 deep, with leaves on the way; the first fifty levels are walked.
fn deep_values(scale: usize) -> Streams {
    let mut grammar = Grammar::new();
    grammar.production(0, [keyword("("), Element::Repetition(0), keyword(")")]);
    let mut templates = Templates::new();
    let list = templates.list(0);
    let again = Node::expand(1, [Path::variable(1)]);
    let each = Node::each(Path::variable(0), again);
    templates.template(0, [list], Node::build(0, [Node::sequence([each])]));
    let leaf = Node::build(0, [Node::sequence([])]);
    let each = Node::each(Path::variable(0), leaf);
    templates.template(0, [list], Node::build(0, [Node::sequence([each])]));
    let tower = || {
        let mut value = Value::list([]);
        for level in 0..198 {
            let leaf = Value::list([]);
            value = match level % 4 {
                0 => Value::list([leaf.clone(), value, leaf]),
                _ => Value::list([value]),
            };
        }
        value
    };
    let value = Value::list((0..6 * scale).map(|_| tower()));
    Streams::of(&grammar, &templates, &value)
}

fn wide_sequence(scale: usize) -> Streams {
    let grammar = entries(1, 4, &[(0x61, 0x7A), (0x370, 0x3FF)]);
    let mut templates = Templates::new();
    let text = templates.text(0);
    let entry = Node::build(1, [Node::place(Path::variable(0))]);
    let row = Node::sequence(vec![entry; 640 * scale]);
    templates.template(0, [text], Node::build(0, [row]));
    Streams::of(&grammar, &templates, &Value::text("ψ"))
}

/// A record in a record, five levels, each with its texts before the next, and a path to the last.
fn nested_records(templates: &mut Templates) -> (u16, Value, Path) {
    let text = templates.text(0);
    let texts = || [Value::text("α"), Value::text("bc")];
    let (mut kind, mut value) = (templates.record([text, text]), Value::record(texts()));
    for _ in 0..4 {
        kind = templates.record([text, text, kind]);
        value = Value::record(texts().into_iter().chain([value]));
    }
    let path = Path {
        variable: 0,
        fields: vec![2, 2, 2, 2, 1],
    };
    (kind, value, path)
}

/// Entries in a row, each placed by a path of five steps.
fn deep_paths(scale: usize) -> Streams {
    let grammar = entries(1, 4, &[(0x61, 0x7A), (0x370, 0x3FF)]);
    let mut templates = Templates::new();
    let (kind, value, path) = nested_records(&mut templates);
    let entry = Node::build(1, [Node::place(path)]);
    let row = Node::sequence(vec![entry; 640 * scale]);
    templates.template(0, [kind], Node::build(0, [row]));
    Streams::of(&grammar, &templates, &value)
}

/// Templates of one entry each, of which the last is expanded.
fn many_templates(scale: usize) -> Streams {
    let grammar = entries(1, 4, &[(0x61, 0x7A), (0x370, 0x3FF)]);
    let mut templates = Templates::new();
    let text = templates.text(0);
    let count = 400 * scale;
    let last = Node::expand(count as u16, [Path::variable(0)]);
    templates.template(0, [text], Node::build(0, [Node::sequence([last])]));
    for _ in 0..count {
        let entry = Node::build(1, [Node::place(Path::variable(0))]);
        templates.template(1, [text], entry);
    }
    Streams::of(&grammar, &templates, &Value::text("ψ"))
}

/// Expands in a row of a template with eight parameters, which places the last of them.
fn many_arguments(scale: usize) -> Streams {
    let grammar = entries(1, 4, &[(0x61, 0x7A), (0x370, 0x3FF)]);
    let mut templates = Templates::new();
    let (kind, value, path) = nested_records(&mut templates);
    let expand = Node::expand(1, vec![path; 8]);
    let row = Node::sequence(vec![expand; 220 * scale]);
    templates.template(0, [kind], Node::build(0, [row]));
    let entry = Node::build(1, [Node::place(Path::variable(7))]);
    templates.template(1, [0; 8], entry);
    Streams::of(&grammar, &templates, &value)
}

/// Ifs and loops in turn, in a row: each has an entry below it.
fn many_branches(scale: usize) -> Streams {
    let grammar = entries(1, 4, &[(0x61, 0x7A), (0x370, 0x3FF)]);
    let mut templates = Templates::new();
    let (yes_no, text) = (templates.yes_no(), templates.text(0));
    let texts = templates.list(text);
    let whole = templates.record([yes_no, text, texts]);
    let field = |field| Path::variable(0).field(field);
    let entry = |path| Node::build(1, [Node::place(path)]);
    let either = Node::either(field(0), entry(field(1)), entry(field(1)));
    let each = Node::each(field(2), entry(Path::variable(1)));
    let pairs = (0..150 * scale).flat_map(|_| [either.clone(), each.clone()]);
    templates.template(0, [whole], Node::build(0, [Node::sequence(pairs)]));
    let value = Value::record([
        Value::YesNo(false),
        Value::text("ψ"),
        Value::list([Value::text("ab")]),
    ]);
    Streams::of(&grammar, &templates, &value)
}

/// Three loops in one another over forty items: 64,000 innermost bodies.
fn nested_loops() -> Streams {
    let mut grammar = Grammar::new();
    grammar.production(0, [Element::Repetition(0)]);
    grammar.production(0, []);
    let mut templates = Templates::new();
    let yes_no = templates.yes_no();
    let list = templates.list(yes_no);
    let mut body = Node::build(1, []);
    for _ in 0..3 {
        let each = Node::each(Path::variable(0), body);
        body = Node::build(0, [Node::sequence([each])]);
    }
    templates.template(0, [list], body);
    let value = Value::list(vec![Value::YesNo(true); 40]);
    Streams::of(&grammar, &templates, &value)
}
