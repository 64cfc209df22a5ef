//! Cases of refusals 8 to 12, and of runs that finish.

use crate::case::{Case, Lent, Set, PLENTY};
use crate::example::{
    choice, endless, example, grammar, of_value, pair, templates, titles, value, yes_no,
};
use crate::records::{range, Records};
use build::Value;

/// All of them.
#[must_use]
pub fn all() -> Vec<Case> {
    [
        vec![example().case("0 the example")],
        texts(),
        characters(),
        shapes(),
        branches(),
        scratches(),
        fuels(),
        rooms(),
        levels(),
    ]
    .concat()
}

fn texts() -> Vec<Case> {
    vec![
        of_value("0 empty list", &titles([])),
        of_value("8 title of bytes 0xC0 0x80", &titles([&[0xC0, 0x80]])),
        of_value("8 title \"AB\"", &titles([b"AB"])),
        of_value(
            "8 title of five Greek letters",
            &titles(["αβγδε".as_bytes()]),
        ),
        of_value("8 empty title", &titles([b""])),
        of_value(
            "8 title that ends in a character",
            &titles([b"\xce\xb1\xce"]),
        ),
        of_value("8 second title of byte 0x80", &titles([b"ab", &[0x80]])),
    ]
}

/// Any character from U+0370 on is in the class: what is refused is no UTF-8.
fn characters() -> Vec<Case> {
    let wide = |label: &str, text: &[u8]| {
        let grammar = grammar().with(2, range(0x370, 0x10_FFFF));
        Set::of(&grammar, &templates(), &titles([text])).case(label)
    };
    vec![
        wide("8 surrogate U+D800", b"\xed\xa0\x80"),
        wide("0 U+E000", "\u{E000}".as_bytes()),
        wide("8 U+0370 in three bytes", b"\xe0\x8d\xb0"),
        wide("8 U+0370 in four bytes", b"\xf0\x80\x8d\xb0"),
        wide("0 U+10FFFF", "\u{10FFFF}".as_bytes()),
        wide("8 U+110000", b"\xf4\x90\x80\x80"),
    ]
}

fn shapes() -> Vec<Case> {
    let text = |text: &str| Value::text(text);
    let records = |value: Value| Records::from(value.records());
    let two = records(Value::record([text("ab"), text("αβγδ")]));
    let first = records(Value::record([text("ab")]));
    let yes = records(Value::list([Value::YesNo(true)]));
    vec![
        of_value("8 text in place of the list", &records(text("ab"))),
        of_value("8 record in place of the list", &two),
        of_value("8 yes/no in place of a title", &yes),
        Set::of(&grammar(), &pair(), &two).case("0 record of two fields"),
        Set::of(&grammar(), &pair(), &first).case("8 record with a field too few"),
    ]
}

/// The first branch on yes.
fn branches() -> Vec<Case> {
    let decided = |yes| Set::of(&grammar(), &choice(), &yes_no(yes));
    vec![
        decided(true).case("0 if on yes"),
        decided(false).case("0 if on no"),
    ]
}

fn scratches() -> Vec<Case> {
    let of = |label, numbers| example().lent(label, Lent { numbers, ..PLENTY });
    let nothing = Lent {
        fuel: 0,
        room: 0,
        numbers: 0,
    };
    let no_scratch = Lent {
        numbers: 0,
        ..PLENTY
    };
    let capital = titles([b"AB"]);
    vec![
        of("9 scratch of 4799", 4_799),
        example().lent("9 no scratch, no fuel, no room", nothing),
        of("0 scratch of 4801", 4_801),
        Set::of(&grammar(), &templates(), &capital)
            .lent("8 no scratch, and a title \"AB\"", no_scratch),
    ]
}

fn fuels() -> Vec<Case> {
    let of = |label, fuel| example().lent(label, Lent { fuel, ..PLENTY });
    let neither = Lent {
        fuel: 0,
        room: 0,
        ..PLENTY
    };
    vec![
        of("0 fuel 7", 7),
        of("10 fuel 6", 6),
        of("10 fuel 3", 3),
        of("10 no fuel", 0),
        example().lent("10 no fuel and no room", neither),
    ]
}

fn rooms() -> Vec<Case> {
    let of = |label, room| example().lent(label, Lent { room, ..PLENTY });
    vec![
        of("0 room for 16", 16),
        of("12 room for 15", 15),
        of("12 room for 13", 13),
        of("12 room for 2", 2),
        of("12 no room", 0),
    ]
}

/// The set that expands itself without an end.
fn levels() -> Vec<Case> {
    let set = Set::of(&grammar(), &endless(), &value());
    let of = |label, fuel| set.clone().lent(label, Lent { fuel, ..PLENTY });
    vec![
        of("11 endless, fuel 4294967295", u32::MAX),
        of("11 endless, fuel 201", 201),
        of("10 endless, fuel 200", 200),
    ]
}
