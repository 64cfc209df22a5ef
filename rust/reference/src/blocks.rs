//! Blocks: 512 bytes, of which 504 are payload, closed by a 32-bit FNV-1a that starts from the check
//! of the block before (request b).

use crate::answer::{Answer, Kind, Refusal};

pub(crate) const BLOCK: usize = 512;
pub(crate) const PAYLOAD: usize = 504;
const MOST_BLOCKS: usize = 128;

/// Where the payload lies in a block, and where its check begins.
const PAYLOAD_AT: usize = 4;
const CHECK_AT: usize = PAYLOAD_AT + PAYLOAD;

/// The number that the published FNV-1a starts from, and with it the check of block 0.
pub const START: u32 = 2_166_136_261;

/// 32-bit FNV-1a.
#[must_use]
pub fn fnv1a(bytes: &[u8]) -> u32 {
    fnv1a_from(START, bytes)
}

/// 32-bit FNV-1a that starts from another number.
#[must_use]
pub fn fnv1a_from(start: u32, bytes: &[u8]) -> u32 {
    bytes.iter().fold(start, |hash, &byte| {
        (hash ^ u32::from(byte)).wrapping_mul(16_777_619)
    })
}

/// The payload of a single block as a part of the lent bytes; its number isn't judged, and its check
/// starts from the number given.
///
/// A length other than 512, a kind outside 1 to 3, a byte 3 that isn't zero or a wrong check gives
/// back an empty part.
#[must_use]
pub fn block_payload(block: &[u8], start: u32) -> &[u8] {
    if block.len() == BLOCK && known_kind(block[2]) && block[3] == 0 && check_holds(block, start) {
        payload(block)
    } else {
        &[]
    }
}

/// The payload of a block of 512 bytes.
pub(crate) fn payload(block: &[u8]) -> &[u8] {
    &block[PAYLOAD_AT..CHECK_AT]
}

fn known_kind(kind: u8) -> bool {
    (1..=3).contains(&kind)
}

/// The check that a block of 512 bytes holds, right or wrong.
fn stored_check(block: &[u8]) -> u32 {
    let check = &block[CHECK_AT..];
    u32::from_le_bytes([check[0], check[1], check[2], check[3]])
}

fn check_holds(block: &[u8], start: u32) -> bool {
    stored_check(block) == fnv1a_from(start, &block[..CHECK_AT])
}

/// Refusals 1 and 2, each over all streams before the next.
pub(crate) fn judge(streams: &[(Kind, &[u8])]) -> Result<(), Refusal> {
    for &(kind, stream) in streams {
        if !is_stream_length(stream.len()) {
            return Err(Refusal::at(1, kind, 0));
        }
    }
    for &(kind, stream) in streams {
        if let Some(block) = first_bad_block(kind as u8, stream) {
            return Err(Refusal::at(2, kind, block));
        }
    }
    Ok(())
}

fn is_stream_length(length: usize) -> bool {
    length != 0 && length <= MOST_BLOCKS * BLOCK && length.is_multiple_of(BLOCK)
}

/// The first block with a wrong number, kind, byte 3 or check. Each check starts from the one that
/// the block before holds.
fn first_bad_block(kind: u8, stream: &[u8]) -> Option<usize> {
    let mut start = START;
    for (number, block) in stream.chunks_exact(BLOCK).enumerate() {
        let sound = block[..2] == (number as u16).to_le_bytes()
            && block[2] == kind
            && block[3] == 0
            && check_holds(block, start);
        if !sound {
            return Some(number);
        }
        start = stored_check(block);
    }
    None
}

/// Turns a payload (a multiple of 8 bytes, 8 to 64,512) into blocks, zero-filled at the end.
///
/// Tries 1 (payload length), 2 (kind) and 12 (the blocks don't fit); refused, it writes nothing.
pub fn pack(kind: u8, payload: &[u8], out: &mut [u8]) -> Answer {
    if payload.is_empty()
        || payload.len() > MOST_BLOCKS * PAYLOAD
        || !payload.len().is_multiple_of(8)
    {
        return plain(1, 0, 0);
    }
    if !known_kind(kind) {
        return plain(2, 0, 0);
    }
    let length = payload.len().div_ceil(PAYLOAD) * BLOCK;
    let Some(blocks) = out.get_mut(..length) else {
        return plain(12, 0, 0);
    };
    let mut start = START;
    for (number, (block, part)) in blocks
        .chunks_exact_mut(BLOCK)
        .zip(payload.chunks(PAYLOAD))
        .enumerate()
    {
        start = fill_block(block, number as u16, kind, part, start);
    }
    plain(0, 0, length)
}

/// Fills a block whose check starts from `start`; answers the check, from which the next one starts.
fn fill_block(block: &mut [u8], number: u16, kind: u8, part: &[u8], start: u32) -> u32 {
    block[..2].copy_from_slice(&number.to_le_bytes());
    block[2] = kind;
    block[3] = 0;
    let (text, rest) = block[PAYLOAD_AT..CHECK_AT].split_at_mut(part.len());
    text.copy_from_slice(part);
    rest.fill(0);
    let check = fnv1a_from(start, &block[..CHECK_AT]);
    block[CHECK_AT..].copy_from_slice(&check.to_le_bytes());
    check
}

/// Gives all payload bytes of a stream that should be of `kind`.
///
/// Tries 1, 2 (place: the block; 0 for a kind outside 1 to 3) and 12; refused, it writes nothing.
pub fn unpack(kind: u8, stream: &[u8], out: &mut [u8]) -> Answer {
    if !is_stream_length(stream.len()) {
        return plain(1, 0, 0);
    }
    if !known_kind(kind) {
        return plain(2, 0, 0);
    }
    if let Some(block) = first_bad_block(kind, stream) {
        return plain(2, block, 0);
    }
    let length = stream.len() / BLOCK * PAYLOAD;
    let Some(payloads) = out.get_mut(..length) else {
        return plain(12, 0, 0);
    };
    for (part, block) in payloads
        .chunks_exact_mut(PAYLOAD)
        .zip(stream.chunks_exact(BLOCK))
    {
        part.copy_from_slice(payload(block));
    }
    plain(0, 0, length)
}

/// An answer of packing or unpacking, whose steps and kind are always 0.
fn plain(number: u8, place: usize, bytes: usize) -> Answer {
    Answer {
        number,
        place,
        bytes,
        ..Answer::default()
    }
}

#[cfg(test)]
mod tests {
    use super::*;

    /// So many bytes, packed as kind 3: each block has another payload.
    fn packed(length: usize) -> Vec<u8> {
        let payload: Vec<u8> = (0..length).map(|i| (i % 251) as u8).collect();
        let mut stream = vec![0; length.div_ceil(PAYLOAD) * BLOCK];
        assert_eq!(pack(3, &payload, &mut stream).number, 0);
        stream
    }

    fn unpacked(stream: &[u8]) -> String {
        unpack(3, stream, &mut vec![0; stream.len()]).to_string()
    }

    /// The stream as it was packed before request b.
    fn with_old_checks(mut stream: Vec<u8>) -> Vec<u8> {
        for block in stream.chunks_exact_mut(BLOCK) {
            let check = fnv1a(&block[..CHECK_AT]);
            block[CHECK_AT..].copy_from_slice(&check.to_le_bytes());
        }
        stream
    }

    #[test]
    fn published_checks() {
        assert_eq!(fnv1a(b""), 0x811c_9dc5);
        assert_eq!(fnv1a(b"a"), 0xe40c_292c);
        assert_eq!(fnv1a(b"foobar"), 0xbf9c_f968);
    }

    #[test]
    fn a_hash_goes_on_where_another_ended() {
        assert_eq!(fnv1a_from(fnv1a(b"foo"), b"bar"), 0xbf9c_f968);
        assert_eq!(fnv1a_from(7, b""), 7);
    }

    #[test]
    fn packed_records_come_back_with_zero_fill() {
        let payload: Vec<u8> = (0..1016u32).map(|i| (i % 251) as u8).collect();
        let mut stream = vec![0xAA; 2000];
        let answer = pack(3, &payload, &mut stream);
        assert_eq!(answer.to_string(), "0 0 0 0 1536");
        assert!(stream[1536..].iter().all(|&byte| byte == 0xAA));
        let mut back = vec![0xBB; 1600];
        let answer = unpack(3, &stream[..1536], &mut back);
        assert_eq!(answer.to_string(), "0 0 0 0 1512");
        assert_eq!(back[..1016], payload);
        assert!(back[1016..1512].iter().all(|&byte| byte == 0));
        assert!(back[1512..].iter().all(|&byte| byte == 0xBB));
    }

    #[test]
    fn each_check_starts_from_the_one_before() {
        let stream = packed(3 * PAYLOAD);
        let mut start = START;
        for block in stream.chunks_exact(BLOCK) {
            start = fnv1a_from(start, &block[..CHECK_AT]);
            assert_eq!(block[CHECK_AT..], start.to_le_bytes());
        }
    }

    #[test]
    fn a_stream_of_one_block_keeps_its_bytes() {
        let stream = packed(PAYLOAD);
        assert_eq!(with_old_checks(stream.clone()), stream);
    }

    #[test]
    fn old_checks_are_refused_at_block_1() {
        let stream = with_old_checks(packed(3 * PAYLOAD));
        assert_eq!(unpacked(&stream), "2 0 1 0 0");
    }

    #[test]
    fn blocks_of_two_streams_are_refused_where_they_join() {
        let (one, mut other) = (packed(6 * PAYLOAD), packed(6 * PAYLOAD - 8));
        assert_eq!(unpacked(&one), "0 0 0 0 3024");
        other[4] ^= 1;
        let payload: Vec<u8> = other.chunks(BLOCK).flat_map(payload).copied().collect();
        assert_eq!(pack(3, &payload, &mut other).number, 0);
        for joint in 1..6 {
            let joined = [&one[..joint * BLOCK], &other[joint * BLOCK..]].concat();
            assert_eq!(unpacked(&joined), format!("2 0 {joint} 0 0"));
        }
    }

    /// The check that is stored counts: what follows a wrong one may hold, and isn't reached.
    #[test]
    fn a_wrong_check_is_refused_where_it_stands() {
        let mut stream = packed(2 * PAYLOAD);
        stream[CHECK_AT] ^= 1;
        let (first, second) = stream.split_at_mut(BLOCK);
        let check = fnv1a_from(stored_check(first), &second[..CHECK_AT]);
        second[CHECK_AT..].copy_from_slice(&check.to_le_bytes());
        assert_eq!(unpacked(&stream), "2 0 0 0 0");
    }

    #[test]
    fn a_single_block_is_judged_without_its_number() {
        let mut block = vec![0; 512];
        fill_block(&mut block, 77, 2, &[1; 8], 9);
        assert_eq!(block_payload(&block, 9), &block[4..508]);
        assert!(block_payload(&block[1..], 9).is_empty());
        block[100] ^= 1;
        assert!(block_payload(&block, 9).is_empty());
    }

    #[test]
    fn a_single_block_is_judged_from_the_start_given() {
        let stream = packed(2 * PAYLOAD);
        let (first, second) = stream.split_at(BLOCK);
        let start = stored_check(first);
        assert_eq!(block_payload(first, START), payload(first));
        assert_eq!(block_payload(second, start), payload(second));
        assert!(block_payload(first, start).is_empty());
        for other in [0, START, start ^ 1, start ^ 1 << 31, u32::MAX] {
            assert!(block_payload(second, other).is_empty());
        }
    }
}
