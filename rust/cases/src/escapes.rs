//! Cases of escaped classes and of the unescape call (request c).

use crate::case::{Call, Case, Lent, Set, PLENTY};
use crate::example::{entries, template, templates, titles};
use crate::records::{range, Records};
use build::{escaped, record, Element, Grammar, Node, Record};

/// All of them.
#[must_use]
pub fn all() -> Vec<Case> {
    [
        texts(),
        counts(),
        rooms(),
        literals(),
        positions(),
        layout(),
        rows(),
        names(),
        borders(),
        growth(),
        unescaped(),
        refused(),
        long_texts(),
    ]
    .concat()
}

/// The example's grammar with escaped titles of one to so many characters. Class 0 has records 0 to
/// 2, class 1, its escaped form, 3; class 2, another plain one, 4 to 6, class 3, its escaped form, 7;
/// class 4, the escaped form of 0 again, 8. Production 0 has records 9 to 14, production 1 has 15 to
/// 20; the class that it asks for is named by 18.
fn built(most: u16) -> Grammar {
    let keyword = |text: &str| Element::keyword(text);
    let ranges = [(0x20, 0x7E), (0x370, 0x3FF)];
    let mut grammar = Grammar::new();
    grammar.class(1, most, &ranges);
    grammar.escaped(0);
    grammar.class(1, most, &ranges);
    grammar.escaped(2);
    grammar.escaped(0);
    grammar.production(0, [keyword("["), Element::Repetition(1), keyword("]")]);
    grammar.production(1, [keyword("<"), Element::Class(1), keyword(">")]);
    grammar
}

fn grammar(most: u16) -> Records {
    built(most).records().into()
}

/// The set of one title, of at most so many characters.
fn titled(most: u16, title: &[u8]) -> Set {
    Set::of(&grammar(most), &templates(), &titles([title]))
}

fn texts() -> Vec<Case> {
    let of = |label: &str, title: &str| titled(16, title.as_bytes()).case(label);
    vec![
        of("0 Salt & Rope", "Salt & Rope"),
        of("0 escaped &", "a&b"),
        of("0 escaped <", "a<b"),
        of("0 escaped >", "a>b"),
        of("0 escaped quote", "a\"b"),
        of("0 escaped apostrophe", "a'b"),
        of("0 escaped five in a row", "&<>\"'"),
        of("0 escaped text without any", "Salt and Rope;"),
        of("0 escaped Greek", "αβ&γδ"),
        of("0 escaped entity", "&amp;"),
        of("0 escaped numeric reference", "&#38;"),
        of("0 escaped at both ends", "'amp;'"),
    ]
}

/// Counts are of plain characters.
fn counts() -> Vec<Case> {
    let of = |label: &str, title: &[u8]| titled(4, title).case(label);
    vec![
        of("0 escaped title of most", b"&\"'<"),
        of("8 escaped title of most and one", b"&&&&&"),
        of("0 escaped title of least", b"'"),
        of("8 escaped title of none", b""),
        of("8 escaped title of no UTF-8", b"&\xC0\xA6"),
        of("8 escaped title of another character", b"&\x7F"),
    ]
}

/// The title begins at byte 2; its entity has bytes 3 to 7, the whole text 10.
fn rooms() -> Vec<Case> {
    let of = |room| {
        let number = if room == 10 { 0 } else { 12 };
        let label = format!("{number} escaped title, room for {room}");
        titled(4, b"a&").lent(&label, Lent { room, ..PLENTY })
    };
    let neither = Lent {
        fuel: 4,
        room: 7,
        ..PLENTY
    };
    let mut cases: Vec<Case> = (2..=10).map(of).collect();
    cases.push(titled(4, b"a&").lent("10 neither fuel nor room for an escaped title", neither));
    cases
}

/// A literal is an escaped lexeme itself.
fn literals() -> Vec<Case> {
    let of = |number, text: &str| {
        let templates = template(entries([Node::literal(text)]));
        let label = format!("{number} literal {text} in an escaped position");
        Set::of(&grammar(4), &templates, &titles([b"a"])).case(&label)
    };
    let right = [
        "&amp;", "&lt;", "&gt;", "&quot;", "&apos;", "a&lt;b", "amp;",
    ];
    let four = "&quot;&quot;&amp;&amp;";
    let bare = ["&", "<", ">", "\"", "'", "&;", "&amp", "&amp;&"];
    let other = ["&#38;", "&#x26;", "&AMP;", "&nbsp;", "", "α\u{5D0}"];
    let five = "&amp;&amp;&amp;&amp;&amp;";
    let right = right.into_iter().chain([four]).map(|text| of(0, text));
    let wrong = bare.into_iter().chain(other).chain([five]);
    right.chain(wrong.map(|text| of(7, text))).collect()
}

/// A place takes texts of the plain class that is behind the position.
fn positions() -> Vec<Case> {
    let asked = |label: &str, class| {
        let grammar = grammar(4).with(18, record(4, 1, class, 0, 0));
        Set::of(&grammar, &templates(), &titles([b"a&"])).case(label)
    };
    let typed = |label: &str, class| {
        let templates = templates().with(0, record(1, 0, class, 0, 0));
        Set::of(&grammar(4), &templates, &titles([b"a&"])).case(label)
    };
    let both = |label: &str, class, text| {
        let grammar = grammar(4).with(18, record(4, 1, class, 0, 0));
        let templates = templates().with(0, record(1, 0, text, 0, 0));
        Set::of(&grammar, &templates, &titles([b"a&"])).case(label)
    };
    vec![
        asked("0 text of class 0 in its own position", 0),
        asked("7 text of class 0 in the position of plain class 2", 2),
        asked("7 text of class 0 in the position of class 2, escaped", 3),
        asked("0 text of class 0 in a second escaped position", 4),
        asked("5 element of class 5, behind an escaped class", 5),
        typed("5 text of an escaped class", 1),
        typed("5 text of the last escaped class", 4),
        typed("7 text of class 2 in the position of class 0, escaped", 2),
        both(
            "0 text of class 2 in the position of class 2, escaped",
            3,
            2,
        ),
        both("5 text of an escaped class in its own position", 3, 3),
    ]
}

/// The grammar with another record, on a title that it takes.
fn with(label: &str, place: usize, record: Record) -> Case {
    of_grammar(label, &grammar(4).with(place, record))
}

fn of_grammar(label: &str, grammar: &Records) -> Case {
    Set::of(grammar, &templates(), &titles([b"a&"])).case(label)
}

fn layout() -> Vec<Case> {
    let escaped = |a, b, c, d| record(5, a, b, c, d);
    let row = record(1, 1, 1, 4, 2);
    let broken = [
        ("3 escaped class with c", 3, escaped(1, 0, 1, 0)),
        ("3 escaped class with a high c", 3, escaped(1, 0, 256, 0)),
        ("3 escaped class with d", 3, escaped(1, 0, 0, 1)),
        ("3 escaped class with a high d", 3, escaped(1, 0, 0, 256)),
        ("3 escaped class of number 0 again", 3, escaped(0, 0, 0, 0)),
        ("3 escaped class of number 2", 3, escaped(2, 0, 0, 0)),
        ("3 plain class in a row of its own", 4, row),
        ("3 class record of kind 6", 3, record(6, 1, 0, 0, 0)),
    ];
    let ranged = grammar(4).replaced(4..4, vec![range(0x61, 0x7A)]);
    let last = grammar(4).then(escaped(5, 0, 0, 0));
    let moved = [
        of_grammar("3 range behind an escaped class", &ranged),
        of_grammar("3 escaped class behind a production", &last),
    ];
    let broken = broken.map(|(label, place, record)| with(label, place, record));
    broken.into_iter().chain(moved).collect()
}

/// Rows of plain and escaped classes in turn.
fn rows() -> Vec<Case> {
    let row = |label: &str, count: u16| {
        let mut grammar = built(4);
        while grammar.classes.len() < usize::from(count) {
            match grammar.classes.len() % 2 {
                0 => grammar.class(0, 9, &[]),
                _ => grammar.escaped(2),
            };
        }
        grammar.production(2, [Element::Class(count - 1)]);
        let grammar: Records = grammar.records().into();
        of_grammar(label, &grammar)
    };
    vec![
        row("0 256 classes of both kinds", 256),
        row("3 257 classes of both kinds", 257),
        row("3 258 classes of both kinds", 258),
    ]
}

/// An escaped class names an earlier plain one. It is tried before the elements, and both before the
/// bounds of the plain classes.
fn names() -> Vec<Case> {
    let naming = |plain| record(5, 1, plain, 0, 0);
    let element = record(4, 1, 5, 0, 0);
    let bounds = record(1, 0, 5, 4, 2);
    let both = grammar(4).with(18, element).with(8, record(5, 4, 4, 0, 0));
    let first = grammar(4).with(3, naming(3)).with(7, record(5, 3, 3, 0, 0));
    let other = grammar(4)
        .with(8, record(5, 4, 2, 0, 0))
        .with(18, record(4, 1, 4, 0, 0));
    let typed = templates().with(0, record(1, 0, 1, 0, 0));
    let set =
        |grammar: &Records, templates: &Records| Set::of(grammar, templates, &titles([b"a&"]));
    vec![
        with("5 escaped class of a missing class", 3, naming(5)),
        with("5 escaped class of class 256", 3, naming(256)),
        with("5 escaped class of itself", 3, naming(1)),
        with("5 escaped class of a later plain class", 3, naming(2)),
        with("5 escaped class of a later escaped class", 3, naming(3)),
        with(
            "5 escaped class of an earlier escaped class",
            8,
            record(5, 4, 1, 0, 0),
        ),
        of_grammar("7 escaped class of another plain class", &other),
        of_grammar("5 escaped class before the elements", &both),
        of_grammar("5 first of two escaped classes", &first),
        of_grammar(
            "5 escaped class before bounds",
            &both.clone().with(0, bounds),
        ),
        set(&grammar(4).with(0, bounds), &typed).case("5 text of an escaped class before bounds"),
        set(&first, &typed).case("5 escaped class before a text of one"),
        with(
            "6 bounds of the plain class behind an escaped one",
            4,
            record(1, 2, 5, 4, 2),
        ),
    ]
}

/// The text of the value begins at byte 16 of the payloads, so that a block ends at its byte 487.
fn borders() -> Vec<Case> {
    let lent = Lent {
        room: 4_096,
        ..PLENTY
    };
    let of = |label: &str, before: usize, text: &[u8]| {
        let title = [&vec![b'o'; before][..], text].concat();
        titled(65_535, &title).lent(label, lent)
    };
    vec![
        of("0 escaped character at the end of a block", 487, b"&o"),
        of("0 escaped character at the beginning of a block", 488, b"'"),
        of("0 escaped characters over a border", 486, b"\"\"\"\""),
        of(
            "0 Greek over a border, then an escaped character",
            487,
            "α&".as_bytes(),
        ),
        of("0 escaped character at the second border", 487 + 504, b"<>"),
    ]
}

/// Titles that grow fivefold and sixfold, up to the room for them.
fn growth() -> Vec<Case> {
    let of = |label: &str, title: &[u8], count: usize, room| {
        titled(65_535, &title.repeat(count)).lent(label, Lent { room, ..PLENTY })
    };
    vec![
        of("0 13,208 ampersands, room for 66,044", b"&", 13_208, 66_044),
        of(
            "12 13,208 ampersands, room for 66,043",
            b"&",
            13_208,
            66_043,
        ),
        of(
            "12 13,208 ampersands, room for 66,041",
            b"&",
            13_208,
            66_041,
        ),
        of("0 11,007 quotes, room for 66,046", b"\"", 11_007, 66_046),
        of(
            "12 64,496 ampersands, room for 66,048",
            b"&",
            64_496,
            66_048,
        ),
        of("12 64,496 quotes, room for 66,048", b"\"", 64_496, 66_048),
        of("0 64,496 letters, room for 66,048", b"o", 64_496, 66_048),
    ]
}

/// The unescape call on a text with this name.
pub(crate) fn unescape(name: &str, text: &[u8], room: usize) -> Case {
    Case {
        label: format!("unescape {name} out={room}"),
        call: Call::Unescape(text.to_vec(), room),
    }
}

/// Plain texts, with just enough room, with more, with one byte less, and with none.
fn unescaped() -> Vec<Case> {
    let plain = [
        "Salt & Rope",
        "&",
        "<",
        ">",
        "\"",
        "'",
        "&<>\"'",
        "&amp;",
        "&#38;",
        "αβ&γδ",
        "\u{B}",
        "語😀",
    ];
    let mut cases = vec![unescape("nothing", b"", 0), unescape("nothing", b"", 9)];
    for plain in plain {
        let (text, length) = (escaped(plain.as_bytes()), plain.len());
        let name = String::from_utf8_lossy(&text).replace('\u{B}', "U+000B");
        cases.extend([length, length + 9, length - 1, 0].map(|room| unescape(&name, &text, room)));
    }
    cases.dedup_by(|one, other| one.label == other.label);
    cases
}

/// What no escaping makes of well-formed UTF-8, with room and without.
fn refused() -> Vec<Case> {
    let bare = ["&", "<", ">", "\"", "'", "&;", "&&", "a & b", "&amp;<"];
    let cut = ["&amp", "&am", "&a", "&lt", "&gt", "&quot", "&apos", "&amp&"];
    let other = ["&#38;", "&#x26;", "&#39;", "&nbsp;", "&AMP;", "&Amp;"];
    let mixed = ["& amp;", "&amp;amp;&"];
    let bytes: [&[u8]; 6] = [
        &[0x80],
        &[0xC0, 0xA6],
        &[0xED, 0xA0, 0x80],
        &[0xF4, 0x90, 0x80, 0x80],
        b"&amp;\xCE",
        b"\xCE&lt;\xB1",
    ];
    let texts = [&bare[..], &cut, &other, &mixed].concat().into_iter();
    let texts = texts.map(|text| (text.to_string(), text.as_bytes()));
    let bytes = bytes.map(|bytes| (format!("{bytes:02x?}"), bytes));
    texts
        .chain(bytes)
        .flat_map(|(name, text)| [9, 0].map(|room| unescape(&name, text, room)))
        .collect()
}

/// Texts of any length: up to what the program's streams hold.
fn long_texts() -> Vec<Case> {
    let letters = |count: usize, text: &[u8]| [&vec![b'o'; count][..], text].concat();
    vec![
        unescape("66,048 letters", &letters(66_048, b""), 66_048),
        unescape("66,048 letters", &letters(66_048, b""), 66_047),
        unescape(
            "66,043 letters and &amp;",
            &letters(66_043, b"&amp;"),
            66_044,
        ),
        unescape(
            "66,043 letters and &amp;",
            &letters(66_043, b"&amp;"),
            66_043,
        ),
        unescape("66,044 letters and &amp", &letters(66_044, b"&amp"), 66_048),
        unescape("66,047 letters and &", &letters(66_047, b"&"), 0),
        unescape("66,047 letters and 80", &letters(66_047, &[0x80]), 66_048),
    ]
}
