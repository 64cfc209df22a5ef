//! Blocks of 512 bytes around a payload of 504, each with a check that starts from the one before.

use std::collections::HashMap;

use crate::records::Record;

/// The bytes of a block.
pub const BLOCK: usize = 512;
/// The payload bytes of a block.
pub const PAYLOAD: usize = 504;

/// The number from which the check of block 0 starts, and the published FNV-1a.
pub const CHECK_START: u32 = 0x811C_9DC5;

/// Where a block's check begins.
const CHECK_AT: usize = 508;

/// What FNV-1a multiplies by, and what takes that back.
const PRIME: u32 = 0x0100_0193;
const INVERSE: u32 = 899_433_627;

/// 32-bit FNV-1a.
#[must_use]
pub fn fnv1a(bytes: &[u8]) -> u32 {
    fnv1a_from(CHECK_START, bytes)
}

/// 32-bit FNV-1a that starts from another number.
#[must_use]
pub fn fnv1a_from(start: u32, bytes: &[u8]) -> u32 {
    let mut hash = start;
    for &byte in bytes {
        hash = (hash ^ u32::from(byte)).wrapping_mul(PRIME);
    }
    hash
}

/// Packs records into blocks of a kind, zero-filled at the end.
///
/// Neither the kind nor the number of blocks is judged: a stream of more than 128 blocks can be
/// made, too. No records at all give an empty stream.
#[must_use]
pub fn blocks(kind: u8, records: &[Record]) -> Vec<u8> {
    let mut stream = Vec::new();
    for (number, part) in records.chunks(PAYLOAD / 8).enumerate() {
        let start = stream.len();
        stream.extend_from_slice(&(number as u16).to_le_bytes());
        stream.extend_from_slice(&[kind, 0]);
        stream.extend(part.iter().flatten());
        stream.resize(start + BLOCK, 0);
    }
    mend(&mut stream);
    stream
}

/// The check that a whole block holds, right or wrong.
///
/// # Panics
/// If the block has fewer than 512 bytes.
#[must_use]
pub fn check_of(block: &[u8]) -> u32 {
    let check = &block[CHECK_AT..BLOCK];
    u32::from_le_bytes([check[0], check[1], check[2], check[3]])
}

/// The check that a whole block is to hold if it starts from a number.
#[must_use]
pub fn due_check(block: &[u8], start: u32) -> u32 {
    fnv1a_from(start, &block[..CHECK_AT])
}

/// The number from which the check of one of a stream's blocks is to start.
#[must_use]
pub fn due_start(stream: &[u8], number: usize) -> u32 {
    let before = number.checked_sub(1);
    before.map_or(CHECK_START, |before| check_of(&stream[before * BLOCK..]))
}

/// The one number from which the check that a whole block holds is right.
#[must_use]
pub fn start_of(block: &[u8]) -> u32 {
    taken_back(check_of(block), &block[..CHECK_AT])
}

/// Gives a whole block a check.
pub fn set_check(block: &mut [u8], check: u32) {
    block[CHECK_AT..BLOCK].copy_from_slice(&check.to_le_bytes());
}

/// Writes the right check into every whole block of a stream.
pub fn mend(stream: &mut [u8]) {
    mend_from(stream, CHECK_START);
}

/// The same for the later blocks of a stream: the first of them starts from this number, each other
/// from the check before it.
pub fn mend_from(blocks: &mut [u8], start: u32) {
    let mut start = start;
    for block in blocks.chunks_exact_mut(BLOCK) {
        start = due_check(block, start);
        set_check(block, start);
    }
}

/// Writes into every whole block the check that it had before request b: each starts from
/// [`CHECK_START`].
pub fn mend_each(stream: &mut [u8]) {
    for block in stream.chunks_exact_mut(BLOCK) {
        mend(block);
    }
}

/// Gives a whole block a last record of eight letters with which its check is the one wanted.
///
/// A step of FNV-1a can be taken back, so three letters from the front and five from the back meet:
/// there are 26 to the 8th endings for each of the 2 to the 32nd checks.
///
/// # Panics
/// If no ending of letters gives the check, which is about as likely as 1 to e to the 48th.
pub fn with_check(block: &mut [u8], start: u32, wanted: u32) {
    let front = fnv1a_from(start, &block[..CHECK_AT - 8]);
    let reached: HashMap<u32, [u8; 3]> = words()
        .map(|letters| (fnv1a_from(front, &letters), letters))
        .collect();
    let ending =
        words::<5>().find_map(|back| Some((reached.get(&taken_back(wanted, &back))?, back)));
    let (front, back) = ending.expect("an ending of letters");
    block[CHECK_AT - 8..CHECK_AT - 5].copy_from_slice(front);
    block[CHECK_AT - 5..CHECK_AT].copy_from_slice(&back);
    set_check(block, wanted);
}

/// All words of so many letters from a to z.
fn words<const LENGTH: usize>() -> impl Iterator<Item = [u8; LENGTH]> {
    (0..26_usize.pow(LENGTH as u32)).map(|number| {
        let mut rest = number;
        [(); LENGTH].map(|()| {
            let letter = b'a' + (rest % 26) as u8;
            rest /= 26;
            letter
        })
    })
}

/// The hash from which these bytes lead to that one.
fn taken_back(hash: u32, bytes: &[u8]) -> u32 {
    let back = |hash: u32, byte: &u8| hash.wrapping_mul(INVERSE) ^ u32::from(*byte);
    bytes.iter().rev().fold(hash, back)
}

/// The payload bytes of all whole blocks of a stream, none of them judged.
#[must_use]
pub fn payload(stream: &[u8]) -> Vec<u8> {
    stream
        .chunks_exact(BLOCK)
        .flat_map(|block| &block[4..CHECK_AT])
        .copied()
        .collect()
}

#[cfg(test)]
mod tests {
    use super::*;

    fn three_blocks() -> Vec<u8> {
        blocks(3, &[[7; 8]; 150])
    }

    #[test]
    fn each_check_starts_from_the_one_before() {
        let stream = three_blocks();
        let mut start = CHECK_START;
        for block in stream.chunks(BLOCK) {
            assert_eq!(check_of(block), fnv1a_from(start, &block[..508]));
            start = check_of(block);
        }
    }

    #[test]
    fn old_checks_differ_from_the_second_block_on() {
        let (stream, mut old) = (three_blocks(), three_blocks());
        mend_each(&mut old);
        assert_eq!(old[..BLOCK], stream[..BLOCK]);
        for block in 1..3 {
            let checks = [&old, &stream].map(|stream| check_of(&stream[block * BLOCK..]));
            assert_ne!(checks[0], checks[1]);
        }
    }

    #[test]
    fn a_step_taken_back() {
        assert_eq!(PRIME.wrapping_mul(INVERSE), 1);
        let hash = fnv1a_from(77, b"any bytes");
        assert_eq!(taken_back(hash, b"any bytes"), 77);
        let stream = three_blocks();
        let starts: Vec<u32> = stream.chunks(BLOCK).map(start_of).collect();
        assert_eq!(starts, [0, 1, 2].map(|number| due_start(&stream, number)));
    }

    #[test]
    fn any_check_can_be_had() {
        for (start, wanted) in [(CHECK_START, CHECK_START), (0, 0), (9, u32::MAX)] {
            let mut block = three_blocks()[BLOCK..2 * BLOCK].to_vec();
            let before = block.clone();
            with_check(&mut block, start, wanted);
            assert_eq!(due_check(&block, start), wanted);
            assert_eq!(check_of(&block), wanted);
            assert_eq!(block[..500], before[..500]);
            assert!(block[500..508].iter().all(u8::is_ascii_lowercase));
        }
    }
}
