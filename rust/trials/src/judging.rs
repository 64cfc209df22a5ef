//! Faults in judging escaped classes, each put on top of the reference: in names, unused fields and
//! bounds, and in the literals and places that stand for them.

use build::{blocks, records_of, Record, GRAMMAR};

use crate::faulty::{b, c, classes, literal, nodes, position};
use crate::machine::{Fields, Machine, Reference};

/// What is wrong with judging.
#[derive(Clone, Copy, Debug, PartialEq, Eq)]
pub enum Judging {
    /// An escaped class may name itself.
    NamesItself,
    /// An escaped class may name a later class.
    NamesLater,
    /// An escaped class may name an escaped one.
    NamesEscaped,
    /// An escaped class may name a class that there isn't.
    NamesNone,
    /// A text type may name an escaped class.
    TypesNameEscaped,
    /// c of an escaped class isn't looked at.
    ForgivesC,
    /// d of an escaped class isn't looked at.
    ForgivesD,
    /// Elements are tried for 5 before escaped classes.
    ElementsFirst,
    /// b and c of an escaped class are taken for its least and most.
    HasBounds,
    /// A literal may have bare characters that an escaped text hasn't.
    BareLiterals,
    /// A literal may have numeric references.
    NumericLiterals,
    /// The characters of a literal are counted with those of its entities.
    CountsEntities,
    /// A place for an escaped class may have any text.
    AnyText,
}

impl Judging {
    /// All of them.
    pub const ALL: [Judging; 13] = [
        Judging::NamesItself,
        Judging::NamesLater,
        Judging::NamesEscaped,
        Judging::NamesNone,
        Judging::TypesNameEscaped,
        Judging::ForgivesC,
        Judging::ForgivesD,
        Judging::ElementsFirst,
        Judging::HasBounds,
        Judging::BareLiterals,
        Judging::NumericLiterals,
        Judging::CountsEntities,
        Judging::AnyText,
    ];

    /// What the faulty machine answers to a check call on streams whose blocks are sound.
    pub(crate) fn check(self, grammar: &[u8], templates: &[u8]) -> Fields {
        let right = Reference.check(grammar, templates);
        if right[0] == 1 || right[0] == 2 {
            return right;
        }
        let mut records = [records_of(grammar), records_of(templates)];
        if self.forgive(&mut records) {
            let [grammar, templates] = &records;
            return Reference.check(&blocks(GRAMMAR, grammar), &blocks(2, templates));
        }
        self.altered(right, &records[0], &records[1])
    }

    /// Changes what this machine forgives; answers whether there was something.
    fn forgive(self, records: &mut [Vec<Record>; 2]) -> bool {
        let before = records.clone();
        let [grammar, templates] = records;
        let heads = classes(grammar);
        for (number, &head) in heads.iter().enumerate() {
            if grammar[head][0] != 5 {
                continue;
            }
            match self {
                Judging::ForgivesC => grammar[head][4..6].fill(0),
                Judging::ForgivesD => grammar[head][6..].fill(0),
                _ if self.forgives_name(grammar, &heads, number) => {
                    mend_name(grammar, &heads, number)
                }
                _ => {}
            }
        }
        if self == Judging::TypesNameEscaped {
            mend_types(grammar, &heads, templates);
        }
        *records != before
    }

    /// Whether this machine lets an escaped class name what it names, though it must not.
    fn forgives_name(self, grammar: &[Record], heads: &[usize], number: usize) -> bool {
        let named = b(&grammar[heads[number]]);
        let kind = heads.get(named).map(|&head| grammar[head][0]);
        match self {
            Judging::NamesItself => named == number,
            Judging::NamesLater => named > number && kind.is_some(),
            Judging::NamesEscaped => named < number && kind == Some(5),
            Judging::NamesNone => kind.is_none(),
            _ => false,
        }
    }

    /// What the faulty machine makes of a right answer.
    fn altered(self, right: Fields, grammar: &[Record], templates: &[Record]) -> Fields {
        let [number, kind, place, ..] = right;
        let place = place as usize;
        match (self, number) {
            (Judging::ElementsFirst, 5) if kind == 1 => elements_first(right, grammar, templates),
            (Judging::HasBounds, 0) => has_bounds(grammar).unwrap_or(right),
            (Judging::CountsEntities, 0) => long_literal(grammar, templates).unwrap_or(right),
            (Judging::BareLiterals | Judging::NumericLiterals | Judging::AnyText, 7) => {
                let is_escaped = |head: usize| grammar[head][0] == 5;
                let escaped = position(grammar, templates, place).is_some_and(is_escaped);
                match escaped && self.takes(templates, place) {
                    true => [0; 5],
                    false => right,
                }
            }
            _ => right,
        }
    }

    /// Whether this machine takes a node for an escaped lexeme.
    fn takes(self, templates: &[Record], node: usize) -> bool {
        let is_literal = templates[node][1] == 1;
        let holds = |what: &[u8]| {
            let text = literal(templates, node);
            is_literal && text.windows(what.len()).any(|part| part == what)
        };
        match self {
            Judging::BareLiterals => [b"<", b">", b"\"", b"'"].iter().any(|bare| holds(*bare)),
            Judging::NumericLiterals => holds(b"&#"),
            _ => templates[node][1] == 2,
        }
    }
}

/// Lets a record name a number.
pub(crate) fn set_b(record: &mut Record, number: usize) {
    record[2..4].copy_from_slice(&(number as u16).to_le_bytes());
}

/// Lets an escaped class name the first plain class, if that stands before it.
fn mend_name(grammar: &mut [Record], heads: &[usize], number: usize) {
    let plain = heads.iter().position(|&head| grammar[head][0] == 1);
    if let Some(plain) = plain.filter(|&plain| plain < number) {
        set_b(&mut grammar[heads[number]], plain);
    }
}

/// Lets each text type of an escaped class name the plain one behind it.
fn mend_types(grammar: &[Record], heads: &[usize], templates: &mut [Record]) {
    let types = templates.iter_mut().take_while(|head| head[0] != 3);
    for head in types.filter(|head| head[..2] == [1, 0]) {
        let named = heads.get(b(head)).map(|&class| grammar[class]);
        if let Some(class) = named.filter(|class| class[0] == 5) {
            set_b(head, b(&class));
        }
    }
}

/// The refusal 5 of an element, if there is one once the escaped classes name what they may.
fn elements_first(right: Fields, grammar: &[Record], templates: &[Record]) -> Fields {
    let mut mended = grammar.to_vec();
    let heads = classes(grammar);
    for number in 0..heads.len() {
        if grammar[heads[number]][0] == 5 {
            mend_name(&mut mended, &heads, number);
        }
    }
    let answer = Reference.check(&blocks(GRAMMAR, &mended), &blocks(2, templates));
    match answer {
        [5, 1, ..] => answer,
        _ => right,
    }
}

/// A refusal 6 at the first escaped class that names another class than 0.
fn has_bounds(grammar: &[Record]) -> Option<Fields> {
    let upside_down = |&head: &usize| grammar[head][0] == 5 && b(&grammar[head]) > 0;
    let place = classes(grammar).into_iter().find(upside_down)?;
    Some([6, 1, place as u64, 0, 0])
}

/// A refusal 7 at the first literal whose escaped form has more characters than the plain class.
fn long_literal(grammar: &[Record], templates: &[Record]) -> Option<Fields> {
    let heads = classes(grammar);
    let place = nodes(templates).into_iter().find(|&node| {
        let class = position(grammar, templates, node).map(|class| grammar[class]);
        let escaped = class.filter(|class| class[0] == 5 && templates[node][1] == 1);
        escaped.is_some_and(|class| {
            let most = c(&grammar[heads[b(&class)]]);
            let text = literal(templates, node);
            String::from_utf8_lossy(&text).chars().count() > most
        })
    })?;
    Some([7, 2, place as u64, 0, 0])
}
