//! Streams and maps changed at random: as bytes, as blocks and as records, with and without right checks.

use super::json;
use super::random::Random;
use feed::{BLOCK, CHECK_START};
use kit::streams::record::{packed, Found, Kind, Record};

/// Numbers at the edges of what a field means.
const WORDS: [u16; 14] = [0, 1, 2, 3, 4, 5, 6, 7, 62, 63, 255, 256, 8064, 65535];

/// A stream that is changed; `other` is another stream, to be joined with it.
pub fn changed(random: &mut Random, stream: &[u8], other: &[u8]) -> Vec<u8> {
    let mut stream = stream.to_vec();
    for _ in 0..=random.mostly_small(3) {
        stream = once(random, stream, other);
        // One block more than the kit reads.
        stream.truncate(feed::STREAM_MOST + 2 * BLOCK);
    }
    match random.below(6) {
        0 => with_old_checks(stream),
        1..=3 => mended(stream),
        _ => stream,
    }
}

fn once(random: &mut Random, mut stream: Vec<u8>, other: &[u8]) -> Vec<u8> {
    match random.below(14) {
        0 => {
            for _ in 0..random.between(1, 8) {
                let place = random.below(stream.len());
                stream
                    .get_mut(place)
                    .into_iter()
                    .for_each(|it| *it = random.byte());
            }
            stream
        }
        1 => {
            stream.truncate(random.below(stream.len() + 1));
            stream
        }
        2 => {
            let blocks = stream.len() / BLOCK;
            stream.truncate(random.below(blocks + 1) * BLOCK);
            stream
        }
        3 => [stream, other.to_vec()].concat(),
        4 => {
            let cut = random.below(stream.len() / BLOCK + 1) * BLOCK;
            [&stream[..cut], other.get(cut..).unwrap_or(other)].concat()
        }
        5 => blocks_swapped(random, stream),
        6 => stream.repeat(random.between(2, 140)),
        7 => match random.below(4) {
            0 => Vec::new(),
            1 => vec![random.byte(); random.below(70_000)],
            2 => (0..random.below(3000)).map(|_| random.byte()).collect(),
            _ => other.to_vec(),
        },
        _ => records_changed(random, &stream),
    }
}

fn blocks_swapped(random: &mut Random, stream: Vec<u8>) -> Vec<u8> {
    let mut blocks: Vec<&[u8]> = stream.chunks(BLOCK).collect();
    let (one, two) = (random.below(blocks.len()), random.below(blocks.len()));
    if !blocks.is_empty() {
        blocks.swap(one, two);
    }
    blocks.concat()
}

/// Records left out, doubled, moved, or with other fields; the checks are those of the new records.
fn records_changed(random: &mut Random, stream: &[u8]) -> Vec<u8> {
    let found = Found::read(stream, None);
    let kind = found.kind.unwrap_or(Kind::Value);
    let mut records = found.records;
    let used = records
        .iter()
        .rposition(|it| !it.is_zero())
        .map_or(0, |last| last + 2);
    for _ in 0..=random.mostly_small(5) {
        let place = random.below(used.min(records.len()));
        let other = random.below(used.min(records.len()));
        let Some(&record) = records.get(place) else {
            break;
        };
        match random.below(9) {
            0 => drop(records.remove(place)),
            1 => records.insert(place, record),
            2 => records.swap(place, other),
            3 => records.insert(place, Record([0; 8])),
            4 => records.truncate(place + 1),
            5 => {
                let times = random.mostly_small(8100);
                records.splice(place..place, std::iter::repeat_n(record, times));
            }
            6 => renumbered(random, &mut records[place..]),
            _ => records[place] = field_changed(random, record),
        }
    }
    packed(kind, &records).unwrap_or_else(|_| stream.to_vec())
}

/// The numbers of productions as another writer may give them: with the low byte alone, with the bytes
/// exchanged, or further on in the row.
fn renumbered(random: &mut Random, records: &mut [Record]) {
    let how = random.below(3);
    let further = random.pick(&WORDS);
    for Record(head) in records.iter_mut().filter(|it| it.kind() == 3) {
        match how {
            0 => head[4..6].fill(0),
            1 => head.swap(1, 4),
            _ => {
                let number = u16::from_le_bytes([head[1], head[4]]).wrapping_add(*further);
                [head[1], head[4]] = number.to_le_bytes();
            }
        }
    }
}

fn field_changed(random: &mut Random, Record(mut bytes): Record) -> Record {
    let word = random.pick(&WORDS).to_le_bytes();
    match random.below(6) {
        0 => bytes[0] = random.below(8) as u8,
        1 => bytes[1] = random.below(9) as u8,
        2 => bytes[2..4].copy_from_slice(&word),
        3 => bytes[4..6].copy_from_slice(&word),
        4 => bytes[6..].copy_from_slice(&word),
        _ => bytes[random.below(8)] = random.byte(),
    }
    Record(bytes)
}

/// The stream with the checks of now, each from the one before it.
fn mended(stream: Vec<u8>) -> Vec<u8> {
    with_checks(stream, true)
}

/// The stream with checks of the old kind.
fn with_old_checks(stream: Vec<u8>) -> Vec<u8> {
    with_checks(stream, false)
}

fn with_checks(mut stream: Vec<u8>, chained: bool) -> Vec<u8> {
    let mut start = CHECK_START;
    for block in stream.chunks_exact_mut(BLOCK) {
        let step = |hash: u32, byte: &u8| (hash ^ u32::from(*byte)).wrapping_mul(16_777_619);
        let check = block[..BLOCK - 4].iter().fold(start, step);
        block[BLOCK - 4..].copy_from_slice(&check.to_le_bytes());
        start = if chained { check } else { CHECK_START };
    }
    stream
}

/// Names that a map may bring, though no description can.
const NAMES: [&str; 7] = [
    "\\u001b[2J",
    "\\u0000",
    "line\\nend",
    "\\u202e",
    "`",
    "\\u0085\\u009b",
    "é\\uD83C\\uDF05",
];

/// A map that is changed; mostly it still fits its streams, and its names or places are odd.
pub fn map_changed(random: &mut Random, map: &[u8], other: &[u8]) -> Vec<u8> {
    let text = String::from_utf8_lossy(map);
    match random.below(8) {
        0 => other.to_vec(),
        1 | 2 => json::changed(random, map),
        3 => json::any(random),
        4 => text
            .replace("\"line\": 1", "\"line\": 1844674407370955161")
            .into_bytes(),
        5 => {
            let lines: Vec<&str> = text.split_inclusive('\n').collect();
            let kept = lines.iter().filter(|_| !random.one_in(20));
            kept.copied().collect::<String>().into_bytes()
        }
        _ => {
            let times = random.mostly_small(3000);
            let what = *random.pick(&[
                "\"class\": \"",
                "\"path\": \"",
                "\"template\": \"",
                "\"field\": \"",
                "\"loop variable\": \"",
                "\"case\": \"",
                "\"case variable\": \"",
                "\"description\": \"",
                "\"nonterminal\": \"",
                "\"type\": \"",
                "\"production\": \"",
                "\"parameter\": \"",
            ]);
            // Not much above the 4 MiB that the kit reads of a map.
            let most = 500_000 / text.matches(what).count().max(1);
            let name = random.pick(&NAMES).repeat(times.min(most));
            text.replace(what, &format!("{what}{name}")).into_bytes()
        }
    }
}
