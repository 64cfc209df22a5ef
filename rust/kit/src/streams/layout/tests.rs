use super::*;
use crate::streams::record::Found;

fn of(description: &str, kind: Kind) -> Vec<Record> {
    let streams = crate::assemble(description).expect("streams");
    let bytes = match kind {
        Kind::Grammar => streams.grammar,
        Kind::Templates => streams.templates,
        Kind::Value => streams.value,
    };
    Found::read(&bytes, Some(kind)).records
}

const SMALL: &str = r#"class c 1 to 4 { 'a'-'z' } production p of n = "[" c n* "]" n*(", ") type t = text c
    template m (x: t) of n = build p (place x sequence () sequence ()) value [yes, "ab"]
    class x = escaped c"#;

fn texts(kind: Kind, records: &[Record]) -> Vec<String> {
    lines(kind, records).iter().map(Line::indented).collect()
}

fn odd(kind: Kind, records: &[Record]) -> Vec<(usize, String)> {
    let all = lines(kind, records).into_iter();
    all.flat_map(|line| line.odd.into_iter().map(move |odd| (line.first, odd)))
        .collect()
}

#[test]
fn a_grammar_is_read() {
    assert_eq!(
        texts(Kind::Grammar, &of(SMALL, Kind::Grammar)),
        [
            "        0  class 0: 1 to 4 characters, 1 range",
            "        1    range U+0061-U+007A",
            "        2  class 1: the escaped form of class 0",
            "        3  production 0 of nonterminal 0: 5 elements",
            "        4    keyword of 1 byte",
            "        5      \"[\"",
            "        6    class 0",
            "        7    repetition of nonterminal 0",
            "        8    keyword of 1 byte",
            "        9      \"]\"",
            "       10    repetition of nonterminal 0 with a separator of 2 bytes",
            "       11      \", \"",
            "    12-62  51 zero records",
        ]
    );
}

#[test]
fn templates_and_values_are_read() {
    assert_eq!(
        texts(Kind::Templates, &of(SMALL, Kind::Templates))[..8],
        [
            "        0  type 0: text of class 0",
            "        1  template 0 of nonterminal 0: 1 parameter, size 7",
            "        2    parameter 0: type 0",
            "        3    build production 0: 3 children, size 5",
            "        4      place, size 2",
            "        5        path: variable 0",
            "        6      sequence of 0 items, size 1",
            "        7      sequence of 0 items, size 1",
        ]
    );
    assert_eq!(
        texts(Kind::Value, &of(SMALL, Kind::Value))[..4],
        [
            "        0  list of 2 items, size 4",
            "        1    yes",
            "        2    text of 2 bytes, size 2",
            "        3      \"ab\"",
        ]
    );
}

#[test]
fn sound_records_have_nothing_odd() {
    for kind in [Kind::Grammar, Kind::Templates, Kind::Value] {
        assert_eq!(odd(kind, &of(SMALL, kind)), []);
    }
}

#[test]
fn a_broken_layout_is_marked_where_it_breaks() {
    let broken = |kind, index: usize, byte: usize, to| {
        let mut records = of(SMALL, kind);
        records[index].0[byte] = to;
        odd(kind, &records).swap_remove(0)
    };
    let said = |at: usize, what: &str| (at, what.to_string());
    assert_eq!(
        broken(Kind::Grammar, 0, 1, 3),
        said(0, "the next class is number 0")
    );
    assert_eq!(
        broken(Kind::Grammar, 1, 7, 3),
        said(1, "byte 7 is 3, not zero")
    );
    assert_eq!(
        broken(Kind::Grammar, 2, 1, 0),
        said(2, "the next class is number 1")
    );
    for (byte, field) in [(4, "c"), (6, "d")] {
        assert_eq!(
            broken(Kind::Grammar, 2, byte, 3),
            said(2, &format!("the unused field {field} is 3, not zero"))
        );
    }
    assert_eq!(
        broken(Kind::Grammar, 5, 6, 3),
        said(5, "its padding is not zero")
    );
    assert_eq!(
        broken(Kind::Grammar, 6, 0, 9),
        said(6, "no record of the grammar has kind 9")
    );
    assert_eq!(
        broken(Kind::Grammar, 7, 4, 2),
        said(7, "the unused field c is 2, not zero")
    );
    assert_eq!(
        broken(Kind::Grammar, 10, 6, 2),
        said(10, "the unused field d is 2, not zero")
    );
    assert_eq!(
        broken(Kind::Grammar, 10, 1, 5),
        said(10, "there is no such form")
    );
    assert_eq!(
        broken(Kind::Grammar, 11, 7, 1),
        said(11, "its padding is not zero")
    );
    assert_eq!(
        broken(Kind::Templates, 3, 4, 9),
        said(3, "it takes 5 records")
    );
    assert_eq!(
        broken(Kind::Templates, 5, 0, 5),
        said(5, "a path is expected here")
    );
    assert_eq!(
        broken(Kind::Templates, 5, 2, 6),
        said(5, "it has 6 steps, more than 5")
    );
    assert_eq!(
        broken(Kind::Value, 1, 1, 2),
        said(1, "a is 2, neither 0 nor 1")
    );
    assert_eq!(
        broken(Kind::Value, 1, 4, 1),
        said(1, "the unused field c is 1, not zero")
    );
}

/// A production without elements, with a number of these two fields.
fn production(a: u8, c: u16) -> Record {
    Record::new(3, a, [0, c, 0])
}

/// So many of them, with the numbers that they should have.
fn productions(count: u16) -> Vec<Record> {
    let numbers = (0..count).map(u16::to_le_bytes);
    numbers.map(|[a, c]| production(a, c.into())).collect()
}

#[test]
fn productions_past_the_256th_are_read() {
    let records = productions(8_064);
    assert_eq!(odd(Kind::Grammar, &records), []);
    let texts = texts(Kind::Grammar, &records);
    assert_eq!(texts.len(), 8_064);
    for number in [0, 255, 256, 257, 699, 8_063] {
        let line = format!("{number:>9}  production {number} of nonterminal 0: 0 elements");
        assert_eq!(texts[number], line);
    }
}

#[test]
fn a_production_out_of_its_row_is_marked_with_both_its_bytes() {
    for (at, a, c, own, due) in [
        (0, 0, 1, "256 (a 0, c 1)", "0 (a 0, c 0)"),
        (0, 1, 0, "1 (a 1, c 0)", "0 (a 0, c 0)"),
        (255, 255, 1, "511 (a 255, c 1)", "255 (a 255, c 0)"),
        (256, 0, 0, "0 (a 0, c 0)", "256 (a 0, c 1)"),
        (256, 1, 0, "1 (a 1, c 0)", "256 (a 0, c 1)"),
        (256, 0, 256, "65536 (a 0, c 256)", "256 (a 0, c 1)"),
        (257, 1, 0, "1 (a 1, c 0)", "257 (a 1, c 1)"),
        (257, 0, 1, "256 (a 0, c 1)", "257 (a 1, c 1)"),
        (258, 1, 2, "513 (a 1, c 2)", "258 (a 2, c 1)"),
        (
            299,
            43,
            0xffff,
            "16777003 (a 43, c 65535)",
            "299 (a 43, c 1)",
        ),
    ] {
        let mut records = productions(300);
        records[at] = production(a, c);
        let said =
            format!("this production has the number {own}, and the next in the row is {due}");
        assert_eq!(odd(Kind::Grammar, &records), [(at, said)]);
    }
}

/// As a writer makes them that keeps the low byte only, and one that exchanges the two bytes.
#[test]
fn every_production_of_a_wrong_row_is_marked() {
    let mut again = productions(700);
    again.iter_mut().for_each(|head| head.0[4] = 0);
    let marks = odd(Kind::Grammar, &again);
    assert_eq!((marks.len(), marks[0].0), (700 - 256, 256));
    let mut exchanged = productions(700);
    exchanged.iter_mut().for_each(|head| head.0.swap(1, 4));
    let marks = odd(Kind::Grammar, &exchanged);
    // Where both bytes are equal, they may be exchanged: 0, 257 and 514.
    assert_eq!((marks.len(), marks[0].0), (700 - 3, 1));
}

#[test]
fn the_257th_class_is_marked() {
    let class = |number: u8| Record::new(1, number, [0; 3]);
    let mut records: Vec<Record> = (0..=u8::MAX).map(class).collect();
    assert_eq!(odd(Kind::Grammar, &records), []);
    records.push(class(0));
    let said = "a class's number is a byte, and 256 classes stand before this one";
    assert_eq!(odd(Kind::Grammar, &records), [(256, said.to_string())]);
}

#[test]
fn any_records_are_read_to_their_end() {
    for seed in 0..2_000_u32 {
        let mut state = seed.wrapping_mul(2_654_435_761) | 1;
        let mut byte = || {
            state = state.wrapping_mul(1_664_525).wrapping_add(1_013_904_223);
            (state >> 24) as u8 % 7
        };
        let records: Vec<Record> = (0..63)
            .map(|_| Record([(); RECORD].map(|()| byte())))
            .collect();
        for kind in [Kind::Grammar, Kind::Templates, Kind::Value] {
            let last = lines(kind, &records).last().map(|line| line.last);
            assert_eq!(last, Some(62));
        }
    }
}
