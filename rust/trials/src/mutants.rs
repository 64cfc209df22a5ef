//! Machines with one fault each: the trials must tell every one of them from the reference.

use build::{blocks, mend, records_of, Record, BLOCK, CHECK_START};

use crate::admission::Admission;
use crate::chains::Chain;
use crate::faulty::{elements_of_form, productions, text_length, walk, Fault};
use crate::judging::Judging;
use crate::machine::{Fields, Machine, Reference};
use crate::matching::Matching;
use crate::numbers::Numbering;
use crate::unescaping::Unescaping;

/// A fault put on top of the reference.
#[derive(Clone, Copy, Debug, PartialEq, Eq)]
pub enum Mutant {
    /// Tries 11 before 10 at a node.
    DepthBeforeFuel,
    /// Allows one step more than the fuel.
    OneStepMore,
    /// Counts the node that 10 keeps from being entered.
    CountsTheUnreached,
    /// Writes as much of a text as fits.
    WritesInPart,
    /// Ends a finished text with a zero byte, if there is room.
    ClosesTheText,
    /// Leaves the last number of the scratch as it was.
    KeepsScratch,
    /// Makes the scratch zero when the value isn't of its type, too.
    ZeroesScratch,
    /// Takes a scratch that is one number short.
    TakesSmallScratch,
    /// Doesn't look at checks.
    ForgivesChecks,
    /// Doesn't look at byte 3 of a block.
    ForgivesByteThree,
    /// Doesn't look at block numbers.
    ForgivesNumbers,
    /// Takes whole blocks of zeros at the end.
    ForgivesTails,
    /// Cuts a stream of more than 128 blocks.
    CutsLongStreams,
    /// Doesn't look at the unused fields of ifs, fors and places.
    ForgivesUnusedFields,
    /// Tries the blocks of grammar and templates before the value's length.
    BlocksBeforeLengths,
    /// Gives every refusal 8 the place 0.
    NoPlaceForEight,
    /// Refuses texts of classes by bytes instead of characters (here: all that aren't ASCII).
    RefusesGreek,
    /// Packs kind 4, too.
    PacksKindFour,
    /// Judges the number of a single block.
    JudgesSingleNumber,
    /// Doesn't look at d of a repetition with a separator.
    ForgivesSeparatorsD,
    /// Doesn't look at the padding of a separator.
    ForgivesSeparatorsPadding,
    /// Takes an element of form 5 for one of form 4.
    TakesFormFive,
    /// Doesn't look whether the nonterminal of a repetition with a separator exists.
    ForgivesSeparatedNames,
    /// Walks with a fault in its separators, entities or matches.
    Walks(Fault),
    /// Judges escaped classes and what stands for them with a fault.
    JudgesEscaped(Judging),
    /// Unescapes with a fault.
    Unescapes(Unescaping),
    /// Admits characters with a fault.
    Admits(Admission),
    /// Numbers productions with a fault.
    Numbers(Numbering),
    /// Judges variants, cases and matches with a fault.
    Matches(Matching),
    /// Judges the blocks of a set by another chain of checks.
    Judges(Chain),
    /// Unpacks by another chain of checks.
    Unpacks(Chain),
    /// Packs with another chain of checks.
    Packs(Chain),
    /// Gives a wrong block's refusal the place of the block before it.
    PlaceBefore,
    /// Starts a single block's check from 2166136261, whatever it is given.
    SingleIgnoresStart,
    /// Takes a single block whose check starts from 2166136261, too.
    SingleTakesOld,
}

impl Mutant {
    /// All of them.
    #[must_use]
    pub fn all() -> Vec<Mutant> {
        let walks = Fault::ALL.map(Mutant::Walks);
        let packs = Chain::OTHER.map(Mutant::Packs);
        let chains = Chain::OTHER.iter().chain(&Chain::LENIENT);
        let judges = chains.flat_map(|&chain| [Mutant::Judges(chain), Mutant::Unpacks(chain)]);
        let escaped = Judging::ALL.map(Mutant::JudgesEscaped);
        let unescapes = Unescaping::ALL.map(Mutant::Unescapes);
        let mut all = [&Self::OTHERS[..], &walks, &packs, &escaped, &unescapes].concat();
        all.extend(Numbering::ALL.map(Mutant::Numbers));
        all.extend(Matching::ALL.map(Mutant::Matches));
        all.extend(judges);
        all.extend(Admission::all().into_iter().map(Mutant::Admits));
        all
    }

    /// All but those with a fault of a kind that has its own module.
    const OTHERS: [Mutant; 26] = [
        Mutant::DepthBeforeFuel,
        Mutant::OneStepMore,
        Mutant::CountsTheUnreached,
        Mutant::WritesInPart,
        Mutant::ClosesTheText,
        Mutant::KeepsScratch,
        Mutant::ZeroesScratch,
        Mutant::TakesSmallScratch,
        Mutant::ForgivesChecks,
        Mutant::ForgivesByteThree,
        Mutant::ForgivesNumbers,
        Mutant::ForgivesTails,
        Mutant::CutsLongStreams,
        Mutant::ForgivesUnusedFields,
        Mutant::BlocksBeforeLengths,
        Mutant::NoPlaceForEight,
        Mutant::RefusesGreek,
        Mutant::PacksKindFour,
        Mutant::JudgesSingleNumber,
        Mutant::ForgivesSeparatorsD,
        Mutant::ForgivesSeparatorsPadding,
        Mutant::TakesFormFive,
        Mutant::ForgivesSeparatedNames,
        Mutant::PlaceBefore,
        Mutant::SingleIgnoresStart,
        Mutant::SingleTakesOld,
    ];

    /// The stream as the faulty machine takes it.
    fn taken(self, stream: &[u8]) -> Vec<u8> {
        let mut taken = stream.to_vec();
        match self {
            Mutant::ForgivesChecks => mend(&mut taken),
            Mutant::Judges(chain) => chain.rewritten(&mut taken, |_, _| {}),
            Mutant::ForgivesByteThree => {
                Chain::Right.rewritten(&mut taken, |_, block| block[3] = 0);
            }
            Mutant::ForgivesNumbers => Chain::Right.rewritten(&mut taken, |number, block| {
                block[..2].copy_from_slice(&(number as u16).to_le_bytes());
            }),
            Mutant::ForgivesTails => while drop_zero_block(&mut taken) {},
            Mutant::CutsLongStreams => taken.truncate(65_536),
            Mutant::ForgivesUnusedFields => change_records(&mut taken, 2, clear_unused_fields),
            Mutant::ForgivesSeparatorsD => change_records(&mut taken, 1, |records| {
                for at in elements_of_form(records, 4) {
                    records[at][6..].fill(0);
                }
            }),
            Mutant::ForgivesSeparatorsPadding => change_records(&mut taken, 1, |records| {
                for at in elements_of_form(records, 4) {
                    clear_padding(records, at);
                }
            }),
            Mutant::TakesFormFive => change_records(&mut taken, 1, |records| {
                for at in elements_of_form(records, 5) {
                    records[at][1] = 4;
                }
            }),
            Mutant::ForgivesSeparatedNames => change_records(&mut taken, 1, mend_names),
            _ => {}
        }
        taken
    }
}

/// Drops the last block if it is one of several and holds zero records only.
fn drop_zero_block(stream: &mut Vec<u8>) -> bool {
    let Some(start) = stream.len().checked_sub(BLOCK).filter(|&start| start > 0) else {
        return false;
    };
    let empty = stream[start + 4..start + 508].iter().all(|&byte| byte == 0);
    if empty {
        stream.truncate(start);
    }
    empty
}

/// Changes the records of a stream of a kind whose blocks are sound.
pub(crate) fn change_records(stream: &mut Vec<u8>, kind: u8, change: impl Fn(&mut [Record])) {
    if stream.get(2) != Some(&kind) {
        return;
    }
    let before = records_of(stream);
    let mut records = before.clone();
    change(&mut records);
    if records != before && Reference.unpack(kind, stream, &mut vec![0; 65_536])[0] == 0 {
        *stream = blocks(kind, &records);
    }
}

/// Clears b and d of the nodes of form 2, 4 and 5 of a templates stream.
fn clear_unused_fields(records: &mut [Record]) {
    for record in records {
        if record[0] == 5 && [2, 4, 5].contains(&record[1]) {
            (record[2], record[3], record[6], record[7]) = (0, 0, 0, 0);
        }
    }
}

/// Lets each repetition with a separator that names no nonterminal name the first one.
fn mend_names(records: &mut [Record]) {
    let heads = productions(records);
    let named: Vec<[u8; 2]> = heads
        .iter()
        .map(|&head| [records[head][2], records[head][3]])
        .collect();
    for at in elements_of_form(records, 4) {
        let number = &mut records[at][2..4];
        if let Some(first) = named.first().filter(|_| !named.iter().any(|n| n == number)) {
            number.copy_from_slice(first);
        }
    }
}

/// Clears what follows the text of an element in its last unit.
fn clear_padding(records: &mut [Record], element: usize) {
    let length = text_length(&records[element]);
    let last = element + length.div_ceil(8);
    if let Some(unit) = records.get_mut(last).filter(|_| !length.is_multiple_of(8)) {
        unit[length % 8..].fill(0);
    }
}

impl Machine for Mutant {
    fn name(&self) -> String {
        format!("mutant {self:?}")
    }

    fn check(&self, grammar: &[u8], templates: &[u8]) -> Fields {
        match self {
            Mutant::JudgesEscaped(fault) => fault.check(grammar, templates),
            Mutant::Admits(fault) => fault.check(grammar, templates),
            Mutant::Matches(fault) => fault.check(grammar, templates),
            Mutant::Numbers(fault) => {
                let [grammar, templates] = fault.taken(grammar, templates);
                Reference.check(&grammar, &templates)
            }
            _ => Reference.check(&self.taken(grammar), &self.taken(templates)),
        }
    }

    fn evaluate(
        &self,
        streams: [&[u8]; 3],
        fuel: u32,
        out: &mut [u8],
        scratch: &mut [u16],
    ) -> Fields {
        let taken = streams.map(|stream| self.taken(stream));
        let parts = [&taken[0][..], &taken[1][..], &taken[2][..]];
        let last = scratch.last().copied();
        match self {
            Mutant::DepthBeforeFuel => depth_before_fuel(parts, fuel, out, scratch),
            Mutant::OneStepMore => Reference.evaluate(parts, fuel.saturating_add(1), out, scratch),
            Mutant::BlocksBeforeLengths => match Reference.check(parts[0], parts[1]) {
                refused if refused[0] == 2 => refused,
                _ => Reference.evaluate(parts, fuel, out, scratch),
            },
            Mutant::TakesSmallScratch if scratch.len() == 4_799 => {
                with_small_scratch(parts, fuel, out, scratch)
            }
            Mutant::Admits(fault) => fault.evaluate(parts, fuel, out, scratch),
            Mutant::Matches(fault) => fault.evaluate(parts, fuel, out, scratch),
            Mutant::Numbers(fault) => {
                let [grammar, templates] = fault.taken(parts[0], parts[1]);
                Reference.evaluate([&grammar, &templates, parts[2]], fuel, out, scratch)
            }
            Mutant::Walks(fault) => {
                let fields = Reference.evaluate(parts, fuel, &mut out.to_vec(), scratch);
                match fields[0] {
                    1..=9 => fields,
                    _ => walk(parts, fuel, out, *fault),
                }
            }
            _ => {
                let fields = Reference.evaluate(parts, fuel, out, scratch);
                self.altered(fields, out, scratch, last)
            }
        }
    }

    fn pack(&self, kind: u8, payload: &[u8], out: &mut [u8]) -> Fields {
        let kind = match (self, kind) {
            (Mutant::PacksKindFour, 4) => 3,
            _ => kind,
        };
        let fields = Reference.pack(kind, payload, out);
        if let Mutant::Packs(chain) = self {
            chain.packed(&mut out[..fields[4] as usize]);
        }
        fields
    }

    fn unpack(&self, kind: u8, stream: &[u8], out: &mut [u8]) -> Fields {
        let mut taken = stream.to_vec();
        if let Mutant::Unpacks(chain) = self {
            chain.rewritten(&mut taken, |_, _| {});
        }
        Reference.unpack(kind, &taken, out)
    }

    fn unescape(&self, text: &[u8], out: &mut [u8]) -> Fields {
        match self {
            Mutant::Unescapes(fault) => fault.call(text, out),
            _ => Reference.unescape(text, out),
        }
    }

    fn block_payload<'a>(&self, block: &'a [u8], start: u32) -> &'a [u8] {
        let given = Reference.block_payload(block, start);
        match self {
            Mutant::JudgesSingleNumber if block.first() != Some(&0) => &[],
            Mutant::SingleIgnoresStart => Reference.block_payload(block, CHECK_START),
            Mutant::SingleTakesOld if given.is_empty() => {
                Reference.block_payload(block, CHECK_START)
            }
            _ => given,
        }
    }
}

impl Mutant {
    /// What the faulty machine makes of a right answer.
    fn altered(
        self,
        mut fields: Fields,
        out: &mut [u8],
        scratch: &mut [u16],
        last: Option<u16>,
    ) -> Fields {
        let written = fields[4] as usize;
        match (self, fields[0]) {
            (Mutant::CountsTheUnreached, 10) => fields[3] += 1,
            (Mutant::WritesInPart, 12) => {
                out[written..].fill(b'x');
                fields[4] = out.len() as u64;
            }
            (Mutant::ClosesTheText, 0) if written < out.len() => out[written] = 0,
            (Mutant::KeepsScratch, 0 | 10..=12) => {
                if let (Some(number), Some(last)) = (scratch.last_mut(), last) {
                    *number = last;
                }
            }
            (Mutant::ZeroesScratch, 8) => scratch.fill(0),
            (Mutant::NoPlaceForEight, 8) => fields[2] = 0,
            (Mutant::PlaceBefore, 2) => fields[2] = fields[2].saturating_sub(1),
            (Mutant::RefusesGreek, 0) if !out[..written].is_ascii() => fields = [8, 3, 0, 0, 0],
            _ => {}
        }
        fields
    }
}

/// A call that makes do with a scratch that is too small.
fn with_small_scratch(parts: [&[u8]; 3], fuel: u32, out: &mut [u8], scratch: &mut [u16]) -> Fields {
    let fields = Reference.evaluate(parts, fuel, out, &mut [0; 4_800]);
    if fields[0] == 0 || fields[0] >= 10 {
        scratch.fill(0);
    }
    fields
}

/// One step more would show whether the node that 10 stops at lies at depth 201.
fn depth_before_fuel(parts: [&[u8]; 3], fuel: u32, out: &mut [u8], scratch: &mut [u16]) -> Fields {
    let mut spare = out.to_vec();
    let further = Reference.evaluate(parts, fuel.saturating_add(1), &mut spare, scratch);
    let fields = Reference.evaluate(parts, fuel, out, scratch);
    if fields[0] == 10 && further[0] == 11 {
        return [11, 2, fields[2], fields[3] + 1, fields[4]];
    }
    fields
}
