//! The checks of blocks: where each starts from, and what is wrong with one.

use feed::{BLOCK, CHECK_START};

/// Which checks the blocks of a stream are held against.
#[derive(Clone, Copy, Debug, PartialEq, Eq)]
pub enum Checks {
    /// Each starts from the check of the block before it.
    Chained,
    /// Each starts from the same number, as all did before request b.
    Old,
}

/// What is wrong with the check of one of a stream's blocks, if anything.
pub fn wrong_check(blocks: &[&[u8]], number: usize, checks: Checks) -> Option<String> {
    let before = number.checked_sub(1).filter(|_| checks == Checks::Chained);
    let start = before.map_or(CHECK_START, |before| stored(blocks[before]));
    let (found, due) = (stored(blocks[number]), due(blocks[number], start));
    if found == due {
        return None;
    }
    let whose = match (before, checks) {
        (Some(before), _) => format!("the check of block {before}"),
        (None, Checks::Chained) => "where block 0 starts".to_string(),
        (None, Checks::Old) => "where every old check starts".to_string(),
    };
    Some(format!(
        "its check is 0x{found:08x}, and its bytes give 0x{due:08x} from 0x{start:08x}, {whose}{}",
        old_kind(blocks[number])
    ))
}

/// A word about a check that isn't right, if it would have been before request b.
fn old_kind(block: &[u8]) -> String {
    if stored(block) != due(block, CHECK_START) {
        return String::new();
    }
    format!(
        "; it is a check of the old kind, which starts from 0x{CHECK_START:08x} in every block: \
         `kit repack` packs such a stream anew"
    )
}

/// The checks that a stream's blocks hold.
pub fn checks(stream: &[u8]) -> Vec<u32> {
    stream.chunks_exact(BLOCK).map(stored).collect()
}

/// The check that a block holds.
fn stored(block: &[u8]) -> u32 {
    let check = &block[BLOCK - 4..];
    u32::from_le_bytes([check[0], check[1], check[2], check[3]])
}

/// The check that a block's bytes give from a start.
fn due(block: &[u8], start: u32) -> u32 {
    fnv1a_from(start, &block[..BLOCK - 4])
}

/// The 32-bit FNV-1a of bytes, from a start.
fn fnv1a_from(start: u32, bytes: &[u8]) -> u32 {
    bytes.iter().fold(start, |hash, &byte| {
        (hash ^ u32::from(byte)).wrapping_mul(16_777_619)
    })
}

/// Gives each block of a stream a check of the old kind.
#[cfg(test)]
pub(crate) fn with_old_checks(stream: &mut [u8]) {
    for block in stream.chunks_exact_mut(BLOCK) {
        let check = due(block, CHECK_START);
        block[BLOCK - 4..].copy_from_slice(&check.to_le_bytes());
    }
}

#[cfg(test)]
mod tests {
    use super::*;

    fn three_blocks(byte: u8) -> Vec<u8> {
        let mut blocks = vec![0; 3 * BLOCK];
        let payload = vec![byte; 3 * feed::PAYLOAD];
        assert_eq!(feed::pack(2, &payload, &mut blocks).number, 0);
        blocks
    }

    /// What is wrong with each of three blocks.
    fn wrong(stream: &[u8], checks: Checks) -> [Option<String>; 3] {
        let blocks: Vec<&[u8]> = stream.chunks(BLOCK).collect();
        [0, 1, 2].map(|number| wrong_check(&blocks, number, checks))
    }

    #[test]
    fn published_values_of_the_check() {
        assert_eq!(fnv1a_from(CHECK_START, b""), 0x811c_9dc5);
        assert_eq!(fnv1a_from(CHECK_START, b"a"), 0xe40c_292c);
        assert_eq!(fnv1a_from(CHECK_START, b"foobar"), 0xbf9c_f968);
    }

    #[test]
    fn the_librarys_checks_are_right() {
        assert_eq!(wrong(&three_blocks(1), Checks::Chained), [None, None, None]);
    }

    #[test]
    fn a_wrong_check_is_told_with_its_start() {
        let mut stream = three_blocks(1);
        stream[100] ^= 1;
        let [first, second, third] = wrong(&stream, Checks::Chained);
        let first = first.expect("a wrong check");
        assert!(first.ends_with(" from 0x811c9dc5, where block 0 starts"));
        assert_eq!([second, third], [None, None]);
    }

    #[test]
    fn a_block_of_another_stream_is_told_with_the_block_before() {
        let joined = [&three_blocks(1)[..BLOCK], &three_blocks(2)[BLOCK..]].concat();
        let check = stored(&joined);
        let [first, second, third] = wrong(&joined, Checks::Chained);
        assert_eq!([first, third], [None, None]);
        let second = second.expect("a wrong check");
        let start = format!(" from 0x{check:08x}, the check of block 0");
        assert!(second.ends_with(&start), "{second}");
    }

    #[test]
    fn old_checks_are_told_as_such() {
        let mut stream = three_blocks(1);
        with_old_checks(&mut stream);
        assert_eq!(wrong(&stream, Checks::Old), [None, None, None]);
        let [first, second, third] = wrong(&stream, Checks::Chained);
        assert_eq!(first, None);
        for wrong in [second, third] {
            let wrong = wrong.expect("a wrong check");
            assert!(wrong.contains("; it is a check of the old kind"), "{wrong}");
        }
    }
}
