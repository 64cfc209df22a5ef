//! Check values, single blocks, and packing and unpacking at their edges.

use crate::case::{Call, Case};
use crate::records::{altered, cut, damaged};
use build::CHECK_START;

/// All of them.
#[must_use]
pub fn all() -> Vec<Case> {
    [
        check_values(),
        single_blocks(),
        edges(),
        pack_refusals(),
        pack_kinds(),
        unpack_kinds(),
        unpack_lengths(),
        unpack_places(),
    ]
    .concat()
}

/// The bytes that are packed: 3, 10, 17 and so on, modulo 256.
fn payload(length: usize) -> Vec<u8> {
    (0..length).map(|i| (7 * i + 3) as u8).collect()
}

/// The first so many bytes of the payload, packed as a kind.
#[must_use]
pub fn packed(kind: u8, length: usize) -> Vec<u8> {
    let mut out = vec![0; 65_536];
    let answer = reference::pack(kind, &payload(length), &mut out);
    cut(out, answer.bytes)
}

fn case(label: String, call: Call) -> Case {
    Case { label, call }
}

fn check_value(name: &str, bytes: &[u8]) -> Case {
    case(format!("fnv1a {name}"), Call::Fnv1a(bytes.to_vec()))
}

fn single(name: &str, block: &[u8]) -> Case {
    single_from(name, block, CHECK_START)
}

/// The payload of a single block whose check starts from this number.
#[must_use]
pub fn single_from(name: &str, block: &[u8], start: u32) -> Case {
    let label = format!("block-payload {name}");
    case(label, Call::BlockPayload(block.to_vec(), start))
}

fn pack(kind: u8, length: usize, room: usize) -> Case {
    let label = format!("pack kind={kind} length={length} out={room}");
    case(label, Call::Pack(kind, payload(length), room))
}

fn unpack(kind: u8, stream: &[u8], room: usize) -> Case {
    let length = stream.len();
    let name = format!("expected={kind} length={length} out={room}");
    unpack_named(&name, kind, stream, room)
}

/// The payload of a stream that should be of a kind.
#[must_use]
pub fn unpack_named(name: &str, kind: u8, stream: &[u8], room: usize) -> Case {
    let label = format!("unpack {name}");
    case(label, Call::Unpack(kind, stream.to_vec(), room))
}

fn check_values() -> Vec<Case> {
    vec![
        check_value("empty", b""),
        check_value("a", b"a"),
        check_value("foobar", b"foobar"),
    ]
}

/// The number is not judged, the kind is, and so are byte 3 and the check.
fn single_blocks() -> Vec<Case> {
    let good = packed(1, 504);
    let high = altered(altered(good.clone(), 0, 255), 1, 255);
    let [zero, four, two, three] = [0, 4, 2, 3].map(|kind| altered(high.clone(), 2, kind));
    vec![
        pack(1, 504, 512),
        single("good", &good),
        single("of no bytes", b""),
        single("of 511 bytes", &good[..511]),
        single("of 513 bytes", &cut(good.clone(), 513)),
        single("number 65535", &high),
        single("kind 0", &zero),
        single("kind 4", &four),
        single("kind 2", &two),
        single("kind 3", &three),
        single("byte 3", &altered(three.clone(), 3, 1)),
        single("good again", &three),
        single("first payload byte", &damaged(three.clone(), 4)),
        single("last payload byte", &damaged(three.clone(), 507)),
        single("first check byte", &damaged(three.clone(), 508)),
        single("last check byte", &damaged(three, 511)),
    ]
}

/// Payloads that fill so many blocks, packed and unpacked with just enough room and with one byte
/// less.
fn edges() -> Vec<Case> {
    let edge = |(length, blocks): (usize, usize)| {
        let stream = packed(2, length);
        [
            pack(2, length, 512 * blocks - 1),
            pack(2, length, 512 * blocks),
            unpack(2, &stream, 504 * blocks - 1),
            unpack(2, &stream, 504 * blocks),
        ]
    };
    [(8, 1), (504, 1), (512, 2), (64_504, 128), (64_512, 128)]
        .into_iter()
        .flat_map(edge)
        .collect()
}

/// What packing refuses, in the order in which it is tried.
fn pack_refusals() -> Vec<Case> {
    vec![
        pack(1, 0, 65_536),
        pack(1, 7, 65_536),
        pack(1, 12, 65_536),
        pack(1, 64_520, 66_048),
        pack(0, 12, 0),
        pack(0, 8, 0),
    ]
}

fn pack_kinds() -> Vec<Case> {
    [0, 4, 1, 2, 3].map(|kind| pack(kind, 8, 512)).to_vec()
}

fn unpack_kinds() -> Vec<Case> {
    let stream = packed(3, 8);
    [0, 1, 2, 3, 4]
        .map(|kind| unpack(kind, &stream, 504))
        .to_vec()
}

fn unpack_lengths() -> Vec<Case> {
    let length = |length, room| unpack(3, &cut(packed(3, 8), length), room);
    vec![
        length(0, 504),
        length(511, 504),
        length(513, 504),
        length(66_048, 65_536),
    ]
}

/// The place of a refusal 2 is the first block that is not right, and what is tried first is
/// answered first.
fn unpack_places() -> Vec<Case> {
    let last = damaged(packed(3, 64_512), 65_535);
    let middle = damaged(last.clone(), 38_912);
    let second = damaged(middle.clone(), 515);
    vec![
        pack(3, 64_512, 65_536),
        unpack(3, &last, 64_512),
        unpack(3, &middle, 64_512),
        unpack(3, &second, 64_511),
        unpack(4, &second[..65_535], 0),
        unpack(4, &second, 0),
    ]
}
