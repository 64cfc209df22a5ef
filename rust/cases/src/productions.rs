//! Cases of more productions than a byte can number (request f).

use crate::case::{Case, Set};
use crate::example::yes_no;
use crate::records::Records;
use build::{Element, Grammar, Node, Templates};

/// All of them.
#[must_use]
pub fn all() -> Vec<Case> {
    [
        counts(),
        builds(),
        high_bytes(),
        low_bytes(),
        sequences(),
        order(),
    ]
    .concat()
}

/// The productions that write their numbers; all others write nothing.
const WRITTEN: [u16; 11] = [1, 2, 187, 255, 256, 257, 258, 299, 511, 513, 699];

/// So many productions. Production 0 of nonterminal 0 is a row of nonterminal 1 in brackets; production
/// 300 is of nonterminal 2, and all others of nonterminal 1.
fn grammar(count: u16) -> Grammar {
    let mut grammar = Grammar::new();
    let keyword = |text: &str| Element::keyword(text);
    grammar.production(0, [keyword("["), Element::Repetition(1), keyword("]")]);
    for number in 1..count {
        let written = WRITTEN.contains(&number);
        let name = written.then(|| keyword(&format!("<{number}>")));
        grammar.production(if number == 300 { 2 } else { 1 }, name);
    }
    grammar
}

/// Template 0 on a yes/no, a row of builds of these, from record 5 on.
fn row(builds: &[u16]) -> Records {
    let mut templates = Templates::new();
    let yes_no = templates.yes_no();
    let items = builds.iter().map(|&number| Node::build(number, []));
    templates.template(0, [yes_no], Node::build(0, [Node::sequence(items)]));
    templates.records().into()
}

/// So many productions, and builds of some.
fn built(label: &str, count: u16, builds: &[u16]) -> Case {
    let grammar = grammar(count).records().into();
    Set::of(&grammar, &row(builds), &yes_no(true)).case(label)
}

/// So many productions, of which the last is built.
fn counts() -> Vec<Case> {
    let of = |count: u16| {
        let label = format!("0 {count} productions, the last built");
        built(&label, count, &[1, count - 1])
    };
    [2, 255, 256, 257, 258, 512, 513, 700].map(of).to_vec()
}

/// Productions that have a byte in common, and those that aren't there.
fn builds() -> Vec<Case> {
    vec![
        built("0 builds of 256, 257 and 513", 700, &[256, 257, 513]),
        built("0 builds of 1, 257, 2 and 258", 700, &[1, 257, 2, 258]),
        built("0 builds of 699 and of 187", 700, &[699, 187]),
        built("0 builds of 258 and of 513", 700, &[258, 513]),
        built("7 build of 300, of nonterminal 2", 700, &[256, 300]),
        built("5 build of 256, past the last", 256, &[255, 256]),
        built("5 build of 257, past the last", 257, &[256, 257]),
        built("5 build of 700, past the last", 700, &[699, 700]),
        built("5 build of 768", 700, &[256, 768]),
        built("5 build of 33024", 700, &[256, 0x8100]),
        built("5 build of 65535", 700, &[256, 65_535]),
    ]
}

/// 300 productions, each with the a and the c that its number is turned into, and builds of some.
fn numbered(label: &str, fields: impl Fn(u16) -> (u16, u16), builds: &[u16]) -> Case {
    let mut records = grammar(300).records();
    let heads = records.iter_mut().filter(|record| record[0] == 3);
    for (number, head) in (0..).zip(heads) {
        let (a, c) = fields(number);
        head[1] = a as u8;
        head[4..6].copy_from_slice(&c.to_le_bytes());
    }
    Set::of(&records.into(), &row(builds), &yes_no(true)).case(label)
}

/// The right fields of a number.
fn right(number: u16) -> (u16, u16) {
    (number % 256, number / 256)
}

/// The same, with these fields for one of the productions.
fn with(label: &str, changed: u16, fields: (u16, u16)) -> Case {
    let other = |number| match number == changed {
        true => fields,
        false => right(number),
    };
    numbered(label, other, &[256, 299])
}

fn high_bytes() -> Vec<Case> {
    vec![
        with("3 production 0 with c 1", 0, (0, 1)),
        with("3 production 0 with c 256", 0, (0, 256)),
        with("3 production 1 with c 1", 1, (1, 1)),
        with("3 production 255 with c 1", 255, (255, 1)),
        with("3 production 255 with c 65535", 255, (255, 65_535)),
        with("0 production 256 with c 1", 256, (0, 1)),
        with("3 production 256 with c 0", 256, (0, 0)),
        with("3 production 256 with c 2", 256, (0, 2)),
        with("3 production 256 with c 256", 256, (0, 256)),
        with("3 production 256 with c 257", 256, (0, 257)),
        with("3 production 257 with c 0", 257, (1, 0)),
        with("3 production 257 with c 257", 257, (1, 257)),
        with("3 production 299 with c 0", 299, (43, 0)),
        with("3 production 299 with c 2", 299, (43, 2)),
    ]
}

fn low_bytes() -> Vec<Case> {
    let exchanged = |number| {
        let (low, high) = right(number);
        (high, low)
    };
    vec![
        with("3 production 1 with its bytes exchanged", 1, (0, 1)),
        with("3 production 256 with its bytes exchanged", 256, (1, 0)),
        with("0 production 257 with its bytes exchanged", 257, (1, 1)),
        with("3 production 258 with its bytes exchanged", 258, (1, 2)),
        numbered(
            "3 all numbers with their bytes exchanged",
            exchanged,
            &[256],
        ),
        with("3 production 256 with a 1", 256, (1, 1)),
        with("3 production 256 with a 255", 256, (255, 1)),
        with("3 production 299 with a 0", 299, (0, 1)),
    ]
}

/// Rows of numbers that aren't one after the other, from some production on.
fn sequences() -> Vec<Case> {
    let from = |first: u16, label: &str, other: fn(u16) -> u16| {
        let fields = |number| match number < first {
            true => right(number),
            false => right(other(number)),
        };
        numbered(label, fields, &[255])
    };
    vec![
        from(256, "3 numbers that start again", |number| number % 256),
        from(0, "3 numbers from 1", |number| number + 1),
        from(0, "3 numbers from 256", |number| number + 256),
        from(255, "3 number 255 left out", |number| number + 1),
        from(256, "3 number 256 left out", |number| number + 1),
        from(256, "3 numbers 256 to 511 left out", |number| number + 256),
        from(256, "3 number 255 twice", |number| number - 1),
        from(257, "3 number 256 twice", |number| number - 1),
        from(299, "3 number 298 twice", |number| number - 1),
    ]
}

/// A number out of sequence is refused before what stands in the templates.
fn order() -> Vec<Case> {
    let again = |number| (number % 256, 0);
    vec![
        numbered(
            "3 numbers that start again, and a build of 300",
            again,
            &[300],
        ),
        numbered("5 build of 300, and one of 0", right, &[0, 300]),
    ]
}
