//! Damage to streams: every field, flipped bytes, cut and joined streams, odd lengths.

use std::ops::Range;

use build::{blocks, due_start, mend, mend_from, records_of, Record, BLOCK};

use crate::faulty::{c, classes, nodes, productions, types, value_heads};
use crate::generate::Streams;
use crate::random::Random;
use crate::uploads;

/// Damages one of the streams, or puts them in the wrong places. `other` is a set to borrow from.
pub fn damage(random: &mut Random, streams: &mut Streams, other: &Streams) {
    let index = random.below(3);
    let kind = index as u8 + 1;
    let stream = streams.part_mut(index);
    match random.below(38) {
        0..=7 => change_field(random, stream, kind),
        8 | 9 => move_records(random, stream, kind),
        10 | 11 => flip(random, stream),
        12 => {
            flip(random, stream);
            mend(stream);
        }
        13 | 14 => change_header(random, stream),
        15 => move_blocks(random, stream, other.parts()[index]),
        16 | 17 => change_length(random, stream),
        18 => *stream = other.parts()[index].to_vec(),
        19 | 20 => change_repetition(random, &mut streams.grammar),
        21..=24 => damage_chain(random, streams, other),
        25 | 26 => change_escaped(random, &mut streams.grammar),
        27..=30 => change_numbers(random, &mut streams.grammar),
        31..=33 => change_match(random, &mut streams.templates),
        34..=36 => change_case(random, &mut streams.value),
        _ => *stream = other.parts()[random.below(3)].to_vec(),
    }
}

/// Damages the chain of checks of the longest stream. A stream of one block gets more of them, so
/// that there is one.
fn damage_chain(random: &mut Random, streams: &mut Streams, other: &Streams) {
    let longest = (0..3).max_by_key(|&index| streams.parts()[index].len());
    let index = longest.unwrap_or(0);
    let stream = streams.part_mut(index);
    if stream.len() == BLOCK {
        append_zero_blocks(stream, random.between(1, 9));
    }
    uploads::damage(random, stream, other.parts()[index]);
}

/// Gives one field of one record another value; the checks are mended.
fn change_field(random: &mut Random, stream: &mut Vec<u8>, kind: u8) {
    let mut records = records_of(stream);
    let used = 1 + records.iter().rposition(|r| *r != [0; 8]).unwrap_or(0);
    let end = (used + 2).min(records.len());
    if end == 0 {
        return;
    }
    let at = head_among(random, &records[..end]);
    let record = &mut records[at];
    match random.below(3) {
        0 => {
            let at = random.below(8);
            record[at] = odd_byte(random, record[at]);
        }
        1 => {
            let at = random.below(2);
            record[at] = odd_byte(random, record[at]);
        }
        _ => {
            let at = 2 * random.between(1, 3);
            let word = u16::from_le_bytes([record[at], record[at + 1]]);
            record[at..at + 2].copy_from_slice(&odd_word(random, word).to_le_bytes());
        }
    }
    *stream = blocks(kind, &records);
}

/// Changes a repetition of the grammar: its form, the length of its separator, its d, or the
/// separator's units; the checks are mended.
fn change_repetition(random: &mut Random, stream: &mut Vec<u8>) {
    let mut records = records_of(stream);
    let is_one = |&at: &usize| records[at][0] == 4 && [3, 4].contains(&records[at][1]);
    let found: Vec<usize> = (0..records.len()).filter(is_one).collect();
    if found.is_empty() {
        return;
    }
    let at = *random.pick(&found);
    let length = u16::from_le_bytes([records[at][4], records[at][5]]);
    match random.below(5) {
        0 => records[at][1] = *random.pick(&[0, 1, 2, 3, 4, 5]),
        1 | 2 => {
            let length = odd_word(random, length).to_le_bytes();
            records[at][4..6].copy_from_slice(&length);
        }
        3 => records[at][random.between(6, 7)] = odd_byte(random, 0),
        _ => {
            let last = at + usize::from(length).div_ceil(8);
            if let Some(unit) = records.get_mut(last.max(at + 1)) {
                let byte = random.between(4, 7);
                unit[byte] = odd_byte(random, unit[byte]);
            }
        }
    }
    *stream = blocks(1, &records);
}

/// Changes an escaped class of the grammar: its number, the class that it names, c, d, or its kind;
/// the checks are mended.
fn change_escaped(random: &mut Random, stream: &mut Vec<u8>) {
    let mut records = records_of(stream);
    let mut found = classes(&records);
    found.retain(|&head| records[head][0] == 5);
    if found.is_empty() {
        return;
    }
    let record = &mut records[*random.pick(&found)];
    match random.below(5) {
        0 => record[1] = odd_byte(random, record[1]),
        1 => record[2] = odd_byte(random, record[2]),
        2 => record[random.between(4, 5)] = odd_byte(random, 0),
        3 => record[random.between(6, 7)] = odd_byte(random, 0),
        _ => record[0] = *random.pick(&[1, 2, 3, 4, 6]),
    }
    *stream = blocks(1, &records);
}

/// Changes the number of a production of the grammar, or of all from one on; the checks are mended.
fn change_numbers(random: &mut Random, stream: &mut Vec<u8>) {
    let mut records = records_of(stream);
    let heads = productions(&records);
    if heads.is_empty() {
        return;
    }
    let mut borders = vec![
        0,
        255,
        256,
        257,
        512,
        heads.len() - 1,
        random.below(heads.len()),
    ];
    borders.retain(|&number| number < heads.len());
    let first = *random.pick(&borders);
    match random.below(8) {
        0..=3 => change_number(random, &mut records[heads[first]]),
        // They start again.
        4 | 5 => renumber(&mut records, &heads, 256, |number| number % 256),
        // One is left out.
        6 => renumber(&mut records, &heads, first, |number| number + 1),
        // One comes twice.
        _ => renumber(&mut records, &heads, first, |number| {
            number.saturating_sub(1)
        }),
    }
    *stream = blocks(1, &records);
}

/// Changes a byte of a production's number, or exchanges the two, or lets c be 256 or more.
fn change_number(random: &mut Random, head: &mut Record) {
    match random.below(6) {
        0 => head[1] = odd_byte(random, head[1]),
        1 | 2 => head[4] = odd_byte(random, head[4]),
        3 => (head[1], head[4]) = (head[4], head[1]),
        4 => head[5] = random.byte() | 1,
        _ => (head[4], head[5]) = (head[5], head[4]),
    }
}

/// Gives the productions from one on other numbers.
fn renumber(records: &mut [Record], heads: &[usize], first: usize, other: impl Fn(usize) -> usize) {
    for (number, &head) in heads.iter().enumerate().skip(first) {
        let [low, high] = (other(number) as u16).to_le_bytes();
        (records[head][1], records[head][4]) = (low, high);
    }
}

/// Changes a field of a variant's head, of the record of a case of it, or of a match; the checks are
/// mended.
fn change_match(random: &mut Random, stream: &mut Vec<u8>) {
    let mut records = records_of(stream);
    let mut found = types(&records);
    found.retain(|&head| records[head][1] == 4);
    let cases: Vec<usize> = found.iter().map(|head| head + 1).collect();
    found.extend(cases);
    let matches = nodes(&records).into_iter();
    found.extend(matches.filter(|&node| records[node][1] == 7));
    found.retain(|&at| at < records.len());
    if found.is_empty() {
        return;
    }
    let at = *random.pick(&found);
    let record = &mut records[at];
    let forms: &[u8] = match record[0] {
        5 => &[4, 5, 6, 8, 8],
        _ => &[2, 3, 5],
    };
    match random.below(6) {
        0 => record[1] = *random.pick(forms),
        1 => record[random.between(2, 3)] = random.byte() | 1,
        2 => record[random.between(4, 5)] ^= random.byte() | 1,
        3 => record[7] = odd_byte(random, 0),
        _ => record[6] = odd_byte(random, record[6]),
    }
    *stream = blocks(2, &records);
}

/// Changes a case of the value: a field, its kind, or how many children it has, with the sizes around
/// it as they are to be; the checks are mended.
pub(crate) fn change_case(random: &mut Random, stream: &mut Vec<u8>) {
    let mut records = records_of(stream);
    let mut found = value_heads(&records);
    found.retain(|&head| records[head][0] == 5);
    if found.is_empty() {
        return;
    }
    let case = *random.pick(&found);
    let end = case + c(&records[case]);
    let record = &mut records[case];
    match random.below(11) {
        0 => record[0] = *random.pick(&[1, 2, 3, 4, 6]),
        1 | 2 => record[1] = odd_byte(random, record[1]),
        3 => record[random.between(2, 3)] = odd_byte(random, 0),
        4 => record[random.between(4, 5)] = odd_byte(random, record[4]),
        5 => record[6] = *random.pick(&[1, 1, 2, 255]),
        6 => record[7] = odd_byte(random, 0),
        // A second child: yes.
        7 | 8 => splice(&mut records, case, end..end, &[[2, 1, 0, 0, 0, 0, 0, 0]]),
        // No child.
        _ => splice(&mut records, case, case + 1..end, &[]),
    }
    *stream = blocks(3, &records);
}

/// Puts other records in the place of some below a case of a value, and gives the case and the heads
/// around it their sizes.
fn splice(records: &mut Vec<Record>, case: usize, range: Range<usize>, others: &[Record]) {
    if range.start > range.end || range.end > records.len() {
        return;
    }
    for head in value_heads(records) {
        let end = head + c(&records[head]);
        let sized = records[head][0] != 2;
        if sized && head <= case && range.end <= end {
            let size = c(&records[head]) + others.len() - range.len();
            records[head][4..6].copy_from_slice(&(size as u16).to_le_bytes());
        }
    }
    records.splice(range, others.iter().copied());
    // Without the zero fill, which a record more would make too long.
    let used = records.iter().rposition(|record| *record != [0; 8]);
    records.truncate(used.map_or(0, |last| last + 1));
}

/// A record of some of them, mostly one that isn't a unit of text.
fn head_among(random: &mut Random, records: &[Record]) -> usize {
    let mut at = random.below(records.len());
    for _ in 0..6 {
        if (1..=6).contains(&records[at][0]) {
            break;
        }
        at = random.below(records.len());
    }
    at
}

fn odd_byte(random: &mut Random, byte: u8) -> u8 {
    match random.below(5) {
        0 => 0,
        1 => byte.wrapping_add(1),
        2 => byte.wrapping_sub(1),
        3 => random.below(9) as u8,
        _ => random.byte(),
    }
}

fn odd_word(random: &mut Random, word: u16) -> u16 {
    match random.below(6) {
        0 => 0,
        1 => word.wrapping_add(1),
        2 => word.wrapping_sub(1),
        3 => random.below(12) as u16,
        4 => word ^ (1 << random.below(16)),
        _ => random.number() as u16,
    }
}

/// Takes a record away, doubles it, or lets two change places; the checks are mended.
fn move_records(random: &mut Random, stream: &mut Vec<u8>, kind: u8) {
    let mut records = records_of(stream);
    let used = 1 + records.iter().rposition(|r| *r != [0; 8]).unwrap_or(0);
    if records.is_empty() {
        return;
    }
    let (one, two) = (random.below(used), random.below(used));
    match random.below(4) {
        0 => drop(records.remove(one)),
        1 => records.insert(one, records[two]),
        2 => records.swap(one, two),
        _ => records[one] = [0; 8],
    }
    *stream = blocks(kind, &records);
}

/// Flips one bit or changes one byte anywhere; the checks stay as they were.
fn flip(random: &mut Random, stream: &mut [u8]) {
    if stream.is_empty() {
        return;
    }
    let at = random.below(stream.len());
    stream[at] ^= match random.below(2) {
        0 => 1 << random.below(8),
        _ => random.byte() | 1,
    };
}

/// Gives a block another number, kind or byte 3; its check is mended, and at times those behind it,
/// which start from it.
fn change_header(random: &mut Random, stream: &mut [u8]) {
    let count = stream.len() / BLOCK;
    if count == 0 {
        return;
    }
    let number = random.below(count);
    let start = due_start(stream, number);
    let behind = &mut stream[number * BLOCK..];
    let at = random.below(4);
    behind[at] = odd_byte(random, behind[at]);
    match random.once_in(2) {
        true => mend_from(behind, start),
        false => mend_from(&mut behind[..BLOCK], start),
    }
}

/// Swaps, doubles, drops or borrows a block.
fn move_blocks(random: &mut Random, stream: &mut Vec<u8>, other: &[u8]) {
    let mut rows: Vec<Vec<u8>> = stream.chunks(BLOCK).map(<[u8]>::to_vec).collect();
    let foreign: Vec<&[u8]> = other.chunks(BLOCK).collect();
    if rows.is_empty() || foreign.is_empty() {
        return;
    }
    let (one, two) = (random.below(rows.len()), random.below(rows.len()));
    match random.below(5) {
        0 => rows.swap(one, two),
        1 => rows.insert(one, rows[two].clone()),
        2 => drop(rows.remove(one)),
        3 => rows[one] = random.pick(&foreign).to_vec(),
        _ => rows.extend(foreign.iter().map(|block| block.to_vec())),
    }
    *stream = rows.concat();
}

/// Cuts the stream or makes it longer, also by whole blocks and past 65,536 bytes.
fn change_length(random: &mut Random, stream: &mut Vec<u8>) {
    let length = stream.len();
    match random.below(8) {
        0 => stream.clear(),
        1 => stream.truncate(random.below(length + 1)),
        2 => stream.truncate(random.below(length / BLOCK + 1) * BLOCK),
        3 => stream.push(0),
        4 => stream.resize(length + BLOCK, 0),
        5 => append_zero_blocks(stream, 1),
        6 => stream.resize(65_536 + BLOCK, 0),
        _ => stream.resize(65_536 + random.below(3), 0),
    }
}

/// Appends sound blocks of zero records.
fn append_zero_blocks(stream: &mut Vec<u8>, count: usize) {
    if let [_, _, kind, ..] = stream[..] {
        let mut records = records_of(stream);
        records.extend(vec![[0; 8]; count * (BLOCK / 8 - 1)]);
        *stream = blocks(kind, &records);
    }
}
