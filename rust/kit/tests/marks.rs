//! The kit's marks against the proved library: a stream has a mark exactly when the library answers 3.

use kit::streams::layout::lines;
use kit::streams::record::{Found, Kind, Record};
use std::fs;
use std::path::Path;

const KINDS: [Kind; 3] = [Kind::Grammar, Kind::Templates, Kind::Value];

fn stream(example: &str, kind: Kind) -> Vec<u8> {
    let folder = Path::new(env!("CARGO_MANIFEST_DIR"))
        .join("../../examples")
        .join(example);
    fs::read(folder.join(kind.file())).expect("a stream of the example")
}

fn is_marked(kind: Kind, payload: &[u8]) -> bool {
    let found = Found::read(&packed(kind, payload), Some(kind));
    assert_eq!(found.damaged(), 0);
    lines(kind, &found.records)
        .iter()
        .any(|line| !line.odd.is_empty())
}

fn packed(kind: Kind, payload: &[u8]) -> Vec<u8> {
    let mut blocks = vec![0; payload.len().div_ceil(feed::PAYLOAD) * feed::BLOCK];
    assert!(feed::pack(kind.byte(), payload, &mut blocks)
        .finished()
        .is_ok());
    blocks
}

/// Whether the library refuses the layout of this stream, the other two being sound.
fn is_refused(kind: Kind, payload: &[u8]) -> bool {
    let mut set = KINDS.map(|kind| stream("harbour", kind));
    set[usize::from(kind.byte()) - 1] = packed(kind, payload);
    let [grammar, templates, value] = &set;
    feed::evaluate(grammar, templates, value, 0, &mut [], &mut []).number == 3
}

/// Changes each byte of an example's payloads in several ways.
fn agree(example: &str, changes: &[fn(u8) -> u8]) {
    for kind in KINDS {
        let blocks = stream(example, kind);
        let mut payload = vec![0; blocks.len() / feed::BLOCK * feed::PAYLOAD];
        assert!(feed::unpack(kind.byte(), &blocks, &mut payload)
            .finished()
            .is_ok());
        assert!(!is_marked(kind, &payload));
        for index in 0..payload.len() {
            let byte = payload[index];
            for change in changes {
                payload[index] = change(byte);
                let (marked, refused) = (is_marked(kind, &payload), is_refused(kind, &payload));
                assert_eq!(
                    marked, refused,
                    "{kind} of {example}, byte {index} is {}",
                    payload[index]
                );
            }
            payload[index] = byte;
        }
    }
}

#[test]
fn marks_and_refusals_agree_on_the_papers_example() {
    agree(
        "harbour",
        &[
            |b| b ^ 1,
            |b| b.wrapping_add(1),
            |b| b.wrapping_sub(1),
            |b| b ^ 0x80,
            |_| 5,
            |_| 0xff,
        ],
    );
}

#[test]
fn marks_and_refusals_agree_on_the_podcast_example() {
    agree("podcast", &[|b| b.wrapping_add(1)]);
}

/// The numbers of forms and kinds are tried as well: what is a record or a sequence may be a variant or a
/// match with the same fields.
#[test]
fn marks_and_refusals_agree_on_the_media_example() {
    agree(
        "media",
        &[
            |b| b ^ 1,
            |b| b.wrapping_add(1),
            |b| b.wrapping_sub(1),
            |_| 4,
            |_| 5,
            |_| 7,
        ],
    );
}

/// A variant of so many cases, each of a yes/no: 1 to 256 keep the layout.
#[test]
fn marks_and_refusals_agree_on_the_count_of_cases() {
    for count in [0, 1, 2, 255, 256, 257, 300] {
        let head = Record::new(1, 4, [0, 0, count]).0;
        let cases = (0..count).map(|_| Record::new(2, 0, [0; 3]).0);
        let records = [Record::new(1, 1, [0; 3]).0, head].into_iter().chain(cases);
        let payload: Vec<u8> = records.flatten().collect();
        let kept = (1..=256).contains(&count);
        assert_eq!(is_marked(Kind::Templates, &payload), !kept, "{count}");
        assert_eq!(is_refused(Kind::Templates, &payload), !kept, "{count}");
    }
}

/// The numbers of productions around the 256th, and of the first and the last: each byte that a and c have
/// takes every value.
#[test]
fn marks_and_refusals_agree_on_the_numbers_of_productions() {
    let production = |number: u16| {
        let [a, c] = number.to_le_bytes();
        Record::new(3, a, [0, c.into(), 0]).0
    };
    let mut payload: Vec<u8> = (0..300).flat_map(production).collect();
    assert!(!is_marked(Kind::Grammar, &payload) && !is_refused(Kind::Grammar, &payload));
    for number in [0, 1, 254, 255, 256, 257, 299] {
        for at in [1, 4, 5].map(|byte| 8 * number + byte) {
            let own = payload[at];
            for other in (0..=u8::MAX).filter(|&byte| byte != own) {
                payload[at] = other;
                let marked = is_marked(Kind::Grammar, &payload);
                let refused = is_refused(Kind::Grammar, &payload);
                assert!(marked && refused, "byte {at} is {other}");
            }
            payload[at] = own;
        }
    }
}

#[test]
fn marks_and_refusals_agree_on_tails() {
    for kind in KINDS {
        let blocks = stream("harbour", kind);
        let payload = feed::block_payload(&blocks, feed::CHECK_START);
        for length in (8..=payload.len()).step_by(8) {
            let cut = &payload[..length];
            assert_eq!(
                is_marked(kind, cut),
                is_refused(kind, cut),
                "{kind} cut to {length} bytes"
            );
        }
        let twice = [payload, &[0; feed::PAYLOAD]].concat();
        assert!(is_marked(kind, &twice) && is_refused(kind, &twice));
        let zeros = [0; feed::PAYLOAD];
        assert!(is_marked(kind, &zeros) && is_refused(kind, &zeros));
    }
}
