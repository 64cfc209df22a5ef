//! Damage to the chain of a stream's checks: blocks of two uploads, blocks moved, checks of the old
//! kind, starts from elsewhere.
//!
//! Numbers, kinds and bytes 3 are mostly right, so that it is a check that is refused, or nothing.

use build::{blocks, check_of, due_check, due_start, set_check, with_check};
use build::{mend, mend_each, mend_from, BLOCK, CHECK_START};

use crate::random::Random;

/// Damages the chain of a stream of whole blocks. `other` is a stream to borrow from.
pub(crate) fn damage(random: &mut Random, stream: &mut Vec<u8>, other: &[u8]) {
    if stream.len() < BLOCK {
        return;
    }
    match random.below(16) {
        0..=2 => join(random, stream, other),
        3 => {
            let other = edition(random, stream);
            join(random, stream, &other);
        }
        4 => mend_each(stream),
        5..=8 => start_elsewhere(random, stream, other),
        9..=11 => wrong_check(random, stream),
        12..=14 => move_own(random, stream),
        _ => chances(random, stream),
    }
}

/// A stream of a kind of up to twelve blocks of any bytes, mostly with a damaged chain.
pub(crate) fn stream(random: &mut Random, kind: u8, other: &[u8]) -> Vec<u8> {
    let record = |_| random.number().to_le_bytes();
    let records: Vec<_> = (0..63 * 12).map(record).collect();
    let count = random.between(1, records.len());
    let mut stream = blocks(kind, &records[..count]);
    if !random.once_in(4) {
        damage(random, &mut stream, other);
    }
    stream
}

fn count(stream: &[u8]) -> usize {
    stream.len() / BLOCK
}

/// A block of the stream, often one with which four others begin.
fn some_block(random: &mut Random, stream: &[u8]) -> usize {
    let number = random.below(count(stream));
    match random.once_in(2) {
        true => number / 4 * 4,
        false => number,
    }
}

/// The stream from a block on.
fn from_block(stream: &mut [u8], number: usize) -> &mut [u8] {
    &mut stream[number * BLOCK..]
}

/// Another edition of a stream: a byte is another, and with it every check from there on.
fn edition(random: &mut Random, stream: &[u8]) -> Vec<u8> {
    let mut edition = stream.to_vec();
    let block = random.below(count(stream));
    edition[block * BLOCK + random.between(4, 507)] ^= 1 << random.below(8);
    mend(&mut edition);
    edition
}

/// The first blocks of the stream, and the rest of another one, or of another edition of it where
/// the other is too short for that.
fn join(random: &mut Random, stream: &mut Vec<u8>, other: &[u8]) {
    let joint = some_block(random, stream).max(1);
    let rest = match other.get(joint * BLOCK..) {
        Some(rest) if !rest.is_empty() => rest.to_vec(),
        _ => edition(random, stream)[joint * BLOCK..].to_vec(),
    };
    stream.truncate(joint * BLOCK);
    stream.extend(rest);
}

/// Some number that a check might start from.
pub(crate) fn some_start(random: &mut Random, stream: &[u8]) -> u32 {
    let blocks: Vec<&[u8]> = stream.chunks_exact(BLOCK).collect();
    match random.below(6) {
        0 | 1 => CHECK_START,
        2 => *random.pick(&[0, u32::MAX]),
        3 => random.number() as u32,
        _ if blocks.is_empty() => CHECK_START,
        _ => check_of(blocks[random.below(blocks.len())]),
    }
}

/// From some block on the checks are right, but that block's starts from some other number.
fn start_elsewhere(random: &mut Random, stream: &mut [u8], other: &[u8]) {
    let number = some_block(random, stream);
    let start = match random.once_in(4) {
        true => some_start(random, other),
        false => some_start(random, stream),
    };
    mend_from(from_block(stream, number), start);
}

/// Gives a block a check that is wrong; those behind it start from it, or from what it was.
fn wrong_check(random: &mut Random, stream: &mut [u8]) {
    let number = some_block(random, stream);
    let block = from_block(stream, number);
    let check = check_of(block) ^ 1 << random.below(32);
    set_check(block, check);
    if random.once_in(2) {
        mend_from(&mut block[BLOCK..], check);
    }
}

/// Swaps, doubles or drops a block. All are numbered anew, and each check starts from the number
/// that it started from before.
fn move_own(random: &mut Random, stream: &mut Vec<u8>) {
    let row = |(number, block): (usize, &[u8])| (due_start(stream, number), block.to_vec());
    let mut rows: Vec<_> = stream.chunks_exact(BLOCK).enumerate().map(row).collect();
    let (one, two) = (random.below(rows.len()), random.below(rows.len()));
    match random.below(3) {
        0 => rows.swap(one, two),
        1 => rows.insert(one, rows[two].clone()),
        _ => drop(rows.remove(one)),
    }
    stream.clear();
    for (number, (start, mut block)) in rows.into_iter().enumerate() {
        block[..2].copy_from_slice(&(number as u16).to_le_bytes());
        let check = due_check(&block, start);
        set_check(&mut block, check);
        stream.extend(block);
    }
}

/// Gives the first blocks endings with which their checks are 2166136261: there the old checks and
/// the new ones are the same. Behind them the checks are right, or at times old ones.
pub(crate) fn chances(random: &mut Random, stream: &mut [u8]) {
    let most = count(stream).min(4);
    let number = random.between(1, most);
    for block in stream.chunks_exact_mut(BLOCK).take(number) {
        with_check(block, CHECK_START, CHECK_START);
    }
    match random.once_in(3) {
        true => mend_each(stream),
        false => mend_from(from_block(stream, number), CHECK_START),
    }
}
