//! Cases of the characters that XML 1.0 admits (request d).

use crate::case::{Case, Lent, Set, PLENTY};
use crate::escapes::unescape;
use crate::example::{entries, template, templates, titles};
use crate::records::Records;
use build::borders::{ADMITTED, OTHERS};
use build::{Element, Grammar, Node};

/// All of them.
#[must_use]
pub fn all() -> Vec<Case> {
    [
        borders(),
        within(),
        escaped(),
        tables(),
        elsewhere(),
        blocks(),
        order(),
        unescaped(),
    ]
    .concat()
}

const ALL: &[(u32, u32)] = &[(0, 0x10_FFFF)];

/// The example's grammar with titles of at least so many characters in these ranges (class 0), or in
/// their escaped form (class 1).
fn built(least: u16, ranges: &[(u32, u32)], asked: u16) -> Grammar {
    let keyword = |text: &str| Element::keyword(text);
    let mut grammar = Grammar::new();
    grammar.class(least, 65_535, ranges);
    grammar.escaped(0);
    grammar.production(0, [keyword("["), Element::Repetition(1), keyword("]")]);
    grammar.production(1, [keyword("<"), Element::Class(asked), keyword(">")]);
    grammar
}

fn grammar(ranges: &[(u32, u32)], asked: u16) -> Records {
    built(1, ranges, asked).records().into()
}

/// The set of one title in the position of the class.
fn titled(grammar: &Records, title: &str) -> Set {
    Set::of(grammar, &templates(), &titles([title.as_bytes()]))
}

/// The set of one literal there.
fn literal(grammar: &Records, text: &str) -> Set {
    let templates = template(entries([Node::literal(text)]));
    Set::of(grammar, &templates, &titles([b"a"]))
}

/// A title and a literal of each character at a border, in a class that holds all.
fn borders() -> Vec<Case> {
    let any = grammar(ALL, 0);
    let of = |character: char, [title, refused]: [u8; 2]| {
        let (text, code) = (String::from(character), u32::from(character));
        [
            titled(&any, &text).case(&format!("{title} title of U+{code:04X}")),
            literal(&any, &text).case(&format!("{refused} literal of U+{code:04X}")),
        ]
    };
    let admitted = ADMITTED.iter().flat_map(|&it| of(it, [0, 0]));
    let others = OTHERS.iter().flat_map(|&it| of(it, [8, 7]));
    admitted.chain(others).collect()
}

/// One character among others, and one that is admitted but in no range.
fn within() -> Vec<Case> {
    let any = grammar(ALL, 0);
    let letters = grammar(&[(0x61, 0x7A)], 0);
    vec![
        titled(&any, "\u{B}ab").case("8 title that begins with U+000B"),
        titled(&any, "a\u{B}b").case("8 title with U+000B within"),
        titled(&any, "αβ\u{B}").case("8 title that ends with U+000B"),
        titled(&any, "a\tb\nc\r").case("0 title with U+0009, U+000A and U+000D"),
        literal(&any, "語\u{FFFF}😀").case("7 literal with U+FFFF within"),
        literal(&any, "語\u{FFFD}😀").case("0 literal with U+FFFD within"),
        titled(&letters, "a\tb").case("8 title with U+0009, which is in no range"),
        literal(&letters, "a\tb").case("7 literal with U+0009, which is in no range"),
    ]
}

/// Escaped classes are judged by the plain characters.
fn escaped() -> Vec<Case> {
    let any = grammar(ALL, 1);
    vec![
        titled(&any, "\t&").case("0 escaped title with U+0009"),
        titled(&any, "\u{B}&").case("8 escaped title with U+000B"),
        titled(&any, "<\u{FFFE}").case("8 escaped title with U+FFFE"),
        titled(&any, "&#11;").case("0 escaped title of a reference to U+000B"),
        literal(&any, "\t&amp;").case("0 escaped literal with U+0009"),
        literal(&any, "\u{B}&amp;").case("7 escaped literal with U+000B"),
        literal(&any, "&lt;\u{FFFE}").case("7 escaped literal with U+FFFE"),
        literal(&any, "&#11;").case("7 escaped literal of a reference to U+000B"),
    ]
}

/// Class tables stay legal, whatever their ranges hold.
fn tables() -> Vec<Case> {
    let controls = grammar(&[(0, 0x1F)], 0);
    let tab = grammar(&[(0xB, 0xB)], 0);
    let empty: Records = built(0, &[(0xB, 0xB)], 0).records().into();
    let last = grammar(&[(0xFFFE, 0xFFFF), (0x61, 0x7A)], 0);
    let none = Set::of(&tab, &templates(), &titles([]));
    vec![
        titled(&controls, "\t").case("0 class of U+0000-U+001F, title of U+0009"),
        titled(&controls, "\u{1F}").case("8 class of U+0000-U+001F, title of U+001F"),
        none.case("0 class of U+000B, no title"),
        titled(&tab, "\u{B}").case("8 class of U+000B, title of U+000B"),
        titled(&empty, "").case("0 class of U+000B, empty title"),
        titled(&empty, "\u{B}").case("8 class of U+000B or nothing, title of U+000B"),
        titled(&last, "a").case("0 class with U+FFFE-U+FFFF, another title"),
        titled(&last, "a\u{FFFF}").case("8 class with U+FFFE-U+FFFF, title with U+FFFF"),
    ]
}

/// Keywords and separators are any bytes.
fn elsewhere() -> Vec<Case> {
    let of = |label: &str, keyword: &str, separator: &str| {
        let mut grammar = built(1, ALL, 0);
        let row = Element::separated(1, separator);
        grammar.productions[0].elements = vec![Element::keyword(keyword), row];
        let grammar: Records = grammar.records().into();
        Set::of(&grammar, &templates(), &titles([b"a", b"b"])).case(label)
    };
    vec![
        of("0 keyword of U+000B", "\u{B}", ", "),
        of("0 keyword of U+FFFE", "\u{FFFE}", ", "),
        of("0 separator of U+000B", "[", "\u{B}"),
        of("0 separator of U+FFFF", "[", "\u{FFFF}"),
        of("0 keyword and separator of U+0000", "\0", "\0"),
    ]
}

/// The text of a title begins at byte 16 of the payloads, so that a block ends at its byte 487.
fn blocks() -> Vec<Case> {
    let any = grammar(ALL, 0);
    let lent = Lent {
        room: 4_096,
        ..PLENTY
    };
    let of = |label: &str, before: usize, text: &str| {
        let title = format!("{}{text}", "o".repeat(before));
        titled(&any, &title).lent(label, lent)
    };
    vec![
        of("8 U+000B at the end of a block", 487, "\u{B}o"),
        of("8 U+000B at the beginning of a block", 488, "\u{B}"),
        of("0 U+0009 at both sides of a border", 487, "\t\t"),
        of("8 U+FFFE up to a border", 485, "\u{FFFE}o"),
        of("8 U+FFFE over a border, two bytes before", 486, "\u{FFFE}"),
        of("8 U+FFFE over a border, one byte before", 487, "\u{FFFE}"),
        of("8 U+FFFE behind a border", 488, "\u{FFFE}"),
        of("0 U+FFFD over a border, two bytes before", 486, "\u{FFFD}"),
        of("0 U+FFFD over a border, one byte before", 487, "\u{FFFD}"),
        of("0 U+10FFFF over a border", 486, "\u{10FFFF}"),
    ]
}

/// A literal is judged before the value, and the value before the scratch.
fn order() -> Vec<Case> {
    let any = grammar(ALL, 0);
    let placed = templates();
    let written = template(entries([Node::literal("\u{C}")]));
    let two = titles([b"a", b"\x0B"]);
    let none = Lent {
        numbers: 0,
        ..PLENTY
    };
    vec![
        Set::of(&any, &written, &two).case("7 literal of U+000C, and a title of U+000B"),
        Set::of(&any, &placed, &two).case("8 second title of U+000B"),
        Set::of(&any, &placed, &two).lent("8 no scratch, and a title of U+000B", none),
    ]
}

/// The unescape call knows no class: what it gives back may be no lexeme.
fn unescaped() -> Vec<Case> {
    let of = |character: char| {
        let text = format!("a{character}&amp;");
        let (code, room) = (u32::from(character), text.len() - 4);
        unescape(&format!("aU+{code:04X}&amp;"), text.as_bytes(), room)
    };
    OTHERS.map(of).to_vec()
}
