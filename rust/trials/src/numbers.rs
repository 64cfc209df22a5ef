//! Faults in the numbers of productions, each put on top of the reference: in their bytes, in their
//! order, in how many there may be, and in what is found under a number.

use std::collections::HashSet;

use build::{records_of, Record, GRAMMAR, TEMPLATES};

use crate::faulty::{b, c, classes, d, elements_of_form, nodes, productions};
use crate::judging::set_b;
use crate::machine::{Machine, Reference};
use crate::mutants::change_records;

/// A number that no production has.
const NONE: usize = 0xFFFF;

/// What is wrong with numbers.
#[derive(Clone, Copy, Debug, PartialEq, Eq)]
pub enum Numbering {
    /// Nothing.
    Right,
    /// The high byte isn't looked at.
    LowByteOnly,
    /// They may start again at 256.
    Anew,
    /// c is cut to a byte.
    CutsC,
    /// a is the high byte and c the low one.
    Exchanged,
    /// a may be the high byte and c the low one.
    ExchangedToo,
    /// They aren't looked at from production 256 on.
    LateUnseen,
    /// Some may be left out.
    Skips,
    /// One may come twice.
    Doubles,
    /// There may be so many productions only.
    Most(usize),
    /// A build finds the production of its number modulo so many.
    Modulo(usize),
    /// A build finds a production only among so many.
    Table(usize),
    /// A build finds the last production whose number is the same modulo so many.
    Ring(usize),
    /// A build of one above 255 that there isn't finds the last.
    MissingIsLast,
    /// A build of one above 255 that there isn't finds the one with its low byte.
    MissingIsCut,
    /// Nonterminals are there only by so many productions.
    NamesOf(usize),
    /// The elements of productions above 255 may name what there isn't.
    LateElements,
    /// A class's number is a word, too: there may be more than 256.
    ManyClasses,
}

impl Numbering {
    /// All that go wrong.
    pub const ALL: [Numbering; 23] = [
        Numbering::LowByteOnly,
        Numbering::Anew,
        Numbering::CutsC,
        Numbering::Exchanged,
        Numbering::ExchangedToo,
        Numbering::LateUnseen,
        Numbering::Skips,
        Numbering::Doubles,
        Numbering::Most(256),
        Numbering::Most(512),
        Numbering::Most(4_096),
        Numbering::Modulo(256),
        Numbering::Modulo(512),
        Numbering::Table(256),
        Numbering::Table(512),
        Numbering::Ring(256),
        Numbering::Ring(512),
        Numbering::MissingIsLast,
        Numbering::MissingIsCut,
        Numbering::NamesOf(256),
        Numbering::NamesOf(512),
        Numbering::LateElements,
        Numbering::ManyClasses,
    ];

    /// A set as the faulty machine takes it.
    pub(crate) fn taken(self, grammar: &[u8], templates: &[u8]) -> [Vec<u8>; 2] {
        let [mut grammar, mut templates] = [grammar, templates].map(<[u8]>::to_vec);
        change_records(&mut grammar, GRAMMAR, |records| {
            match self {
                Numbering::NamesOf(most) => forget_names(records, most),
                Numbering::LateElements => mend_late_names(records),
                Numbering::ManyClasses => merge_classes(records),
                _ => {}
            }
            self.renumber(records);
        });
        if !(1..=3).contains(&Reference.check(&grammar, &templates)[0]) {
            let count = productions(&records_of(&grammar)).len();
            change_records(&mut templates, TEMPLATES, |records| {
                for node in nodes(records) {
                    if records[node][1] == 0 {
                        let found = self.found(b(&records[node]), count);
                        set_b(&mut records[node], found);
                    }
                }
            });
        }
        [grammar, templates]
    }

    /// Gives the productions their right numbers if this machine takes those that they have, and else
    /// a wrong one to the first.
    fn renumber(self, records: &mut [Record]) {
        let heads = productions(records);
        let mut last = None;
        let all = heads.iter().enumerate().all(|(number, &head)| {
            let fields = [usize::from(records[head][1]), c(&records[head])];
            let taken = self.takes(number, fields, last);
            last = Some(fields[0] + 256 * fields[1]);
            taken
        });
        for (number, &head) in heads.iter().enumerate() {
            let [low, high] = (number as u16).to_le_bytes();
            let record = &mut records[head];
            if all {
                (record[1], record[4], record[5]) = (low, high, 0);
            } else if number == 0 {
                record[5] = 255;
            }
        }
    }

    /// Whether a production may have a and c, where `last` is the number that the one before it has.
    fn takes(self, number: usize, [a, c]: [usize; 2], last: Option<usize>) -> bool {
        let (low, high) = (number % 256, number / 256);
        let right = (a, c) == (low, high);
        let exchanged = (a, c) == (high, low);
        let said = a + 256 * c;
        match self {
            Numbering::LowByteOnly => a == low,
            Numbering::Anew => right || (a, c) == (low, 0),
            Numbering::CutsC => (a, c % 256) == (low, high),
            Numbering::Exchanged => exchanged,
            Numbering::ExchangedToo => right || exchanged,
            Numbering::LateUnseen => right || number > 255,
            Numbering::Skips => last.map_or(right, |last| said > last),
            Numbering::Doubles => last.map_or(right, |last| said == last || said == last + 1),
            Numbering::Most(most) => right && number < most,
            _ => right,
        }
    }

    /// The production that a build of a number finds among so many.
    fn found(self, number: usize, count: usize) -> usize {
        let there = number < count;
        match self {
            Numbering::Modulo(size) if there => number % size,
            Numbering::Table(size) if number >= size => NONE,
            Numbering::Ring(size) if there => number + (count - 1 - number) / size * size,
            Numbering::MissingIsLast if !there && number > 255 => count.saturating_sub(1),
            Numbering::MissingIsCut if !there && number > 255 => number % 256,
            _ => number,
        }
    }
}

/// The nonterminals of some productions.
fn names(records: &[Record], heads: &[usize]) -> HashSet<usize> {
    heads.iter().map(|&head| b(&records[head])).collect()
}

/// Lets elements that name a nonterminal of none of the first productions name one that there isn't.
fn forget_names(records: &mut [Record], most: usize) {
    let heads = productions(records);
    let known = names(records, &heads[..most.min(heads.len())]);
    let all = names(records, &heads);
    let Some(missing) = (0..=NONE).find(|number| !all.contains(number)) else {
        return;
    };
    for form in 2..=4 {
        for at in elements_of_form(records, form) {
            if !known.contains(&b(&records[at])) {
                set_b(&mut records[at], missing);
            }
        }
    }
}

/// Lets elements behind production 256 that name nothing name the first that there is.
fn mend_late_names(records: &mut [Record]) {
    let heads = productions(records);
    let Some(&late) = heads.get(256) else {
        return;
    };
    let (known, classes) = (names(records, &heads), classes(records).len());
    let first = b(&records[heads[0]]);
    for form in 1..=4 {
        for at in elements_of_form(records, form) {
            let named = b(&records[at]);
            match form {
                _ if at < late => {}
                1 if named >= classes && classes > 0 => set_b(&mut records[at], 0),
                2.. if !known.contains(&named) => set_b(&mut records[at], first),
                _ => {}
            }
        }
    }
}

/// Makes the classes from the 257th on ranges of the 256th, if their numbers go on modulo 256.
fn merge_classes(records: &mut [Record]) {
    let heads = classes(records);
    let [_, others @ ..] = &heads[255.min(heads.len())..] else {
        return;
    };
    let goes_on = |(number, &head): (usize, &usize)| records[head][1] == number as u8;
    let all_go_on = others.iter().enumerate().all(goes_on);
    let Some(&end) = others.last().filter(|_| all_go_on) else {
        return;
    };
    let (last, next) = (heads[255], heads[256]);
    let end = match records[end][0] {
        1 => end + d(&records[end]),
        _ => end,
    };
    if records[last][0] == 1 && end < records.len() {
        records[next..=end].fill([2, 0, 0, 0, 0, 0, 0, 0]);
        let ranges = (end - last) as u16;
        records[last][6..].copy_from_slice(&ranges.to_le_bytes());
    }
}
