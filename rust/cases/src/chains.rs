//! Checks that start from the block before (request b): blocks of two uploads, checks of the old
//! kind, and the chance that a check is the number that block 0 starts from.

use crate::blocks::{packed, single_from, unpack_named};
use crate::case::{Case, Lent, PLENTY};
use crate::example::{example, grammar, templates, value};
use crate::records::{damaged, Records};
use build::{
    check_of, mend_each, mend_from, record, text_units, with_check, Value, BLOCK, CHECK_START,
    GRAMMAR, TEMPLATES, VALUE,
};

/// The blocks of a long stream: more than twice the four that a machine may take at once.
const NINE: usize = 9;

/// All of them.
#[must_use]
pub fn all() -> Vec<Case> {
    [
        single_starts(),
        one_upload(),
        two_uploads(),
        other_starts(),
        wrong_checks(),
        chances(),
        values(),
        grammars(),
    ]
    .concat()
}

/// Nine blocks of kind 3.
fn nine() -> Vec<u8> {
    packed(3, NINE * 504)
}

/// Nine blocks of another upload: the first byte is another, and with it every check.
fn other_nine() -> Vec<u8> {
    rechained(damaged(nine(), 4), 0, CHECK_START)
}

fn block(stream: &[u8], number: usize) -> &[u8] {
    &stream[number * BLOCK..][..BLOCK]
}

fn check(stream: &[u8], number: usize) -> u32 {
    check_of(block(stream, number))
}

/// The stream with right checks from a block on, if that block's starts from this number.
fn rechained(mut stream: Vec<u8>, number: usize, start: u32) -> Vec<u8> {
    mend_from(&mut stream[number * BLOCK..], start);
    stream
}

/// The stream as it was packed before request b.
fn with_old_checks(mut stream: Vec<u8>) -> Vec<u8> {
    mend_each(&mut stream);
    stream
}

/// The first blocks of one stream, and the others of another.
fn joined(one: &[u8], other: &[u8], joint: usize) -> Vec<u8> {
    [&one[..joint * BLOCK], &other[joint * BLOCK..]].concat()
}

/// The stream with an ending in each of its first blocks that gives it the check 2166136261.
fn with_chances(mut stream: Vec<u8>, count: usize) -> Vec<u8> {
    for block in stream.chunks_exact_mut(BLOCK).take(count) {
        with_check(block, CHECK_START, CHECK_START);
    }
    rechained(stream, count, CHECK_START)
}

fn unpack(name: &str, stream: &[u8]) -> Case {
    unpack_named(name, VALUE, stream, stream.len())
}

/// Any number may be given; one of them is right.
fn single_starts() -> Vec<Case> {
    let stream = packed(3, 2 * 504);
    let (first, second) = stream.split_at(BLOCK);
    let start = check_of(first);
    let from = |start| rechained(first.to_vec(), 0, start);
    vec![
        single_from("of block 0 from its own check", first, start),
        single_from("of block 1 from the check before it", second, start),
        single_from("of block 1 from 2166136261", second, CHECK_START),
        single_from("of block 1 from 0", second, 0),
        single_from("of block 1 from 4294967295", second, u32::MAX),
        single_from("of block 1 from a low bit flipped", second, start ^ 1),
        single_from(
            "of block 1 from the highest bit flipped",
            second,
            start ^ 1 << 31,
        ),
        single_from("made from 0, from 0", &from(0), 0),
        single_from("made from 0, from 2166136261", &from(0), CHECK_START),
        single_from("made from 4294967295", &from(u32::MAX), u32::MAX),
    ]
}

fn one_upload() -> Vec<Case> {
    let stream = nine();
    vec![
        unpack("nine blocks", &stream),
        unpack("nine blocks of another upload", &other_nine()),
        unpack("nine blocks with old checks", &with_old_checks(stream)),
    ]
}

/// The place is the first block of the other upload.
fn two_uploads() -> Vec<Case> {
    let (one, other) = (nine(), other_nine());
    let at = |joint| {
        let name = format!("two uploads joined at block {joint}");
        unpack(&name, &joined(&one, &other, joint))
    };
    let back = [&one[..3 * BLOCK], block(&other, 3), &one[4 * BLOCK..]].concat();
    let mut cases: Vec<Case> = (1..NINE).map(at).collect();
    cases.push(unpack("block 3 of another upload", &back));
    cases
}

/// The chain holds from a block on, but that block starts from a number that isn't the check before
/// it.
fn other_starts() -> Vec<Case> {
    let stream = nine();
    let from = |name: &str, number, start| unpack(name, &rechained(nine(), number, start));
    let long = packed(3, 64_512);
    let last = rechained(long.clone(), 127, check(&long, 125));
    vec![
        from("block 0 from 0", 0, 0),
        from("block 0 from its last check", 0, check(&stream, 8)),
        from("block 1 from 0", 1, 0),
        from("block 2 from two blocks before", 2, check(&stream, 0)),
        from("block 4 from 2166136261", 4, CHECK_START),
        from("block 5 from two blocks before", 5, check(&stream, 3)),
        from("block 8 from 2166136261", 8, CHECK_START),
        from("block 8 from block 0", 8, check(&stream, 0)),
        unpack("block 127 from two blocks before", &last),
    ]
}

/// A check that is wrong is refused where it stands, whether or not the next one starts from it.
fn wrong_checks() -> Vec<Case> {
    let stream = nine();
    let wrong = |number: usize| damaged(stream.clone(), number * BLOCK + 508);
    let followed = |number: usize| {
        let start = check(&wrong(number), number);
        let name = format!("block {number} wrong, and the others after it");
        unpack(&name, &rechained(wrong(number), number + 1, start))
    };
    let alone = |number: usize| unpack(&format!("block {number} wrong alone"), &wrong(number));
    [[0, 3, 4, 7].map(followed), [0, 3, 4, 8].map(alone)].concat()
}

/// Where a check is 2166136261 by chance, the next block may be of any stream: old and new checks
/// are the same up to there.
fn chances() -> Vec<Case> {
    let five = packed(3, 5 * 504);
    let one = with_chances(five.clone(), 4);
    let other = with_chances(rechained(damaged(five.clone(), 4), 0, CHECK_START), 4);
    let two = with_chances(five, 2);
    vec![
        unpack("four blocks of check 2166136261", &one),
        unpack("the same with old checks", &with_old_checks(one.clone())),
        unpack("joined there", &joined(&other, &one, 2)),
        unpack("five blocks of check 2166136261", &with_chances(one, 5)),
        unpack("two blocks of check 2166136261", &two),
        unpack("two, and old checks", &with_old_checks(two)),
    ]
}

/// Forty titles of these eight letters. Behind the list's head each has two records, so that the last
/// record of block 0 holds letters.
fn long_value(letters: &str) -> Vec<u8> {
    let titles = Value::list(vec![Value::text(letters); 40]);
    Records::from(titles.records()).packed(VALUE)
}

/// The example's grammar with a keyword so long that it has three blocks.
fn long_grammar() -> Vec<u8> {
    let text = text_units("[".repeat(1_000).as_bytes());
    let keyword = record(4, 0, 1_000, 0, 0);
    let records = [vec![keyword], text].concat();
    grammar().replaced(4..6, records).packed(GRAMMAR)
}

/// Room for the texts of the longer sets.
const ROOMY: Lent = Lent {
    room: 2_048,
    ..PLENTY
};

/// Each stream of a set begins its own chain.
fn values() -> Vec<Case> {
    let [one, other] = ["abcdefgh", "ijklmnop"].map(long_value);
    let wide = grammar().with(0, record(1, 0, 1, 8, 2)).packed(GRAMMAR);
    let of = |label: &str, value: Vec<u8>| {
        let set = example().grammar(wide.clone());
        set.value(value).lent(label, ROOMY)
    };
    let templates_end = check_of(&templates().packed(TEMPLATES));
    let from_templates = rechained(one.clone(), 0, templates_end);
    vec![
        of("0 value of two blocks", one.clone()),
        of("2 value with old checks", with_old_checks(one.clone())),
        of("2 value of two uploads", joined(&one, &other, 1)),
        of("2 value that goes on from the templates", from_templates),
        of("0 value with old and new checks", with_chances(one, 1)),
    ]
}

fn grammars() -> Vec<Case> {
    let long = long_grammar();
    let of = |label: &str, grammar, value| {
        let set = example().grammar(grammar);
        set.value(value).lent(label, ROOMY)
    };
    let short = value().packed(VALUE);
    let anew = rechained(long.clone(), 2, CHECK_START);
    let old = with_old_checks(long_value("abcdefgh"));
    vec![
        of("0 grammar of three blocks", long.clone(), short.clone()),
        of("2 grammar with old checks", with_old_checks(long), short),
        of(
            "2 grammar begun anew, and the value's old checks",
            anew,
            old,
        ),
    ]
}
