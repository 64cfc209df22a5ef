//! The wrapper against the paper's cases, with every lent byte looked at.

use feed::{Answer, Refusal, Stream, CHECK_START, SCRATCH};
use std::path::Path;

/// A byte that no call would write by chance where it must not.
const GUARD: u8 = 0xA5;

struct Set {
    grammar: Vec<u8>,
    templates: Vec<u8>,
    value: Vec<u8>,
}

fn example() -> Set {
    let folder = Path::new(env!("CARGO_MANIFEST_DIR")).join("../../examples/harbour");
    let read = |name: &str| std::fs::read(folder.join(name)).expect("a stream of the example");
    Set {
        grammar: read("grammar.blk"),
        templates: read("template.blk"),
        value: read("value.blk"),
    }
}

fn packed(kind: u8, records: &[[u8; 8]]) -> Vec<u8> {
    let mut blocks = vec![0; feed::BLOCK];
    assert_eq!(
        feed::pack(kind, records.as_flattened(), &mut blocks).bytes,
        512
    );
    blocks
}

/// Evaluates with guards, and sees that exactly the bytes that the paper names have changed.
fn evaluate(set: &Set, fuel: u32, room: usize, numbers: usize) -> (Answer, Vec<u8>) {
    let mut output = vec![GUARD; room + 16];
    let mut scratch = vec![0xA5A5_u16; numbers + 8];
    let answer = feed::evaluate(
        &set.grammar,
        &set.templates,
        &set.value,
        fuel,
        &mut output[8..8 + room],
        &mut scratch[4..4 + numbers],
    );
    let walked = matches!(answer.number, 0 | 10..=12);
    let text = answer.written(&output[8..8 + room]).to_vec();
    assert!(walked || text.is_empty());
    assert!(output[..8]
        .iter()
        .chain(&output[8 + text.len()..])
        .all(|&byte| byte == GUARD));
    let lent = if walked { 0 } else { 0xA5A5 };
    assert!(scratch[4..4 + numbers].iter().all(|&number| number == lent));
    assert!(scratch[..4]
        .iter()
        .chain(&scratch[4 + numbers..])
        .all(|&number| number == 0xA5A5));
    (answer, text)
}

#[track_caller]
fn case(set: &Set, fuel: u32, room: usize, fields: [u64; 5], text: &str) {
    let (answer, written) = evaluate(set, fuel, room, SCRATCH);
    assert_eq!(answer.fields(), fields);
    assert_eq!(written, text.as_bytes());
}

fn with_value(records: &[[u8; 8]]) -> Set {
    Set {
        value: packed(3, records),
        ..example()
    }
}

/// The body is an expand of template 0 on variable 0 alone.
fn endless() -> Set {
    let templates = packed(
        2,
        &[
            [1, 0, 0, 0, 0, 0, 0, 0],
            [1, 2, 0, 0, 0, 0, 0, 0],
            [3, 1, 0, 0, 4, 0, 0, 0],
            [4, 0, 1, 0, 0, 0, 0, 0],
            [5, 3, 0, 0, 2, 0, 1, 0],
            [6, 0, 0, 0, 0, 0, 0, 0],
        ],
    );
    Set {
        templates,
        ..example()
    }
}

#[test]
fn m1_to_m7_the_example() {
    let set = example();
    let whole = "[<ab><αβγδ>]";
    case(&set, 1_000_000, 65_536, [0, 0, 0, 7, 16], whole);
    case(&set, 7, 65_536, [0, 0, 0, 7, 16], whole);
    case(&set, 6, 65_536, [10, 2, 9, 6, 6], "[<ab><");
    case(&set, 0, 65_536, [10, 2, 4, 0, 0], "");
    case(&set, 1_000_000, 16, [0, 0, 0, 7, 16], whole);
    case(&set, 1_000_000, 15, [12, 2, 4, 7, 15], "[<ab><αβγδ>");
    case(&set, 1_000_000, 13, [12, 2, 9, 7, 6], "[<ab><");
}

#[test]
fn m8_to_m10_other_values() {
    case(
        &with_value(&[[3, 0, 0, 0, 1, 0, 0, 0]]),
        1_000_000,
        65_536,
        [0, 0, 0, 3, 2],
        "[]",
    );
    let five = [
        [3, 0, 0, 0, 4, 0, 1, 0],
        [1, 0, 10, 0, 3, 0, 0, 0],
        [0xce, 0xb1, 0xce, 0xb2, 0xce, 0xb3, 0xce, 0xb4],
        [0xce, 0xb5, 0, 0, 0, 0, 0, 0],
    ];
    case(&with_value(&five), 1_000_000, 65_536, [8, 3, 1, 0, 0], "");
    let empty = [[3, 0, 0, 0, 2, 0, 1, 0], [1, 0, 0, 0, 1, 0, 0, 0]];
    case(&with_value(&empty), 1_000_000, 65_536, [8, 3, 1, 0, 0], "");
}

#[test]
fn m11_and_m12_a_set_that_expands_itself() {
    case(&endless(), 201, 65_536, [11, 2, 4, 201, 0], "");
    case(&endless(), 200, 65_536, [10, 2, 4, 200, 0], "");
}

/// The example with a comma and a blank between its entries.
fn commas() -> Set {
    let grammar = packed(
        1,
        &[
            [1, 0, 1, 0, 4, 0, 2, 0],
            [2, 0x61, 0, 0, 0x7a, 0, 0, 0],
            [2, 0x70, 0x03, 0, 0xff, 0x03, 0, 0],
            [3, 0, 0, 0, 0, 0, 3, 0],
            [4, 0, 1, 0, 0, 0, 0, 0],
            *b"[\0\0\0\0\0\0\0",
            [4, 4, 1, 0, 2, 0, 0, 0],
            *b", \0\0\0\0\0\0",
            [4, 0, 1, 0, 0, 0, 0, 0],
            *b"]\0\0\0\0\0\0\0",
            [3, 1, 1, 0, 0, 0, 3, 0],
            [4, 0, 1, 0, 0, 0, 0, 0],
            *b"<\0\0\0\0\0\0\0",
            [4, 1, 0, 0, 0, 0, 0, 0],
            [4, 0, 1, 0, 0, 0, 0, 0],
            *b">\0\0\0\0\0\0\0",
        ],
    );
    Set {
        grammar,
        ..example()
    }
}

#[test]
fn a_separator_comes_before_its_item_whole_or_not_at_all() {
    let set = commas();
    case(&set, 7, 18, [0, 0, 0, 7, 18], "[<ab>, <αβγδ>]");
    case(&set, 5, 18, [10, 2, 8, 5, 7], "[<ab>, ");
    case(&set, 5, 6, [12, 2, 5, 5, 5], "[<ab>");
    let (answer, _) = evaluate(&set, 7, 6, SCRATCH);
    assert_eq!(answer.refusal(), Some(Refusal::OutputFull { node: 5 }));
}

/// The example with escaped titles: class 1 is the escaped form of class 0, which takes any ASCII.
fn escaped(title: [u8; 8], length: u8) -> Set {
    let grammar = packed(
        1,
        &[
            [1, 0, 1, 0, 4, 0, 1, 0],
            [2, 0x20, 0, 0, 0x7e, 0, 0, 0],
            [5, 1, 0, 0, 0, 0, 0, 0],
            [3, 0, 0, 0, 0, 0, 1, 0],
            [4, 3, 1, 0, 0, 0, 0, 0],
            [3, 1, 1, 0, 0, 0, 2, 0],
            [4, 1, 1, 0, 0, 0, 0, 0],
            [4, 0, 1, 0, 0, 0, 0, 0],
            *b";\0\0\0\0\0\0\0",
        ],
    );
    let list = [
        [3, 0, 0, 0, 3, 0, 1, 0],
        [1, 0, length, 0, 2, 0, 0, 0],
        title,
    ];
    Set {
        grammar,
        ..with_value(&list)
    }
}

#[test]
fn a_place_writes_the_entities_whole_or_not_at_all() {
    let set = escaped(*b"a&'\"\0\0\0\0", 4);
    case(&set, 9, 19, [0, 0, 0, 5, 19], "a&amp;&apos;&quot;;");
    case(&set, 9, 18, [12, 2, 8, 5, 18], "a&amp;&apos;&quot;");
    for room in [0, 1, 4, 17] {
        case(&set, 9, room, [12, 2, 9, 5, 0], "");
    }
    // Four plain characters are the most.
    let set = escaped(*b"a&'\"&\0\0\0", 5);
    case(&set, 9, 99, [8, 3, 1, 0, 0], "");
}

/// A stream of one block with other records from a place on.
fn changed(stream: &[u8], place: usize, records: &[[u8; 8]]) -> Vec<u8> {
    let mut payload = [[0; 8]; 63];
    assert_eq!(
        feed::unpack(stream[2], stream, payload.as_flattened_mut()).number,
        0
    );
    payload[place..place + records.len()].copy_from_slice(records);
    packed(stream[2], &payload)
}

/// A short text as a record, zero-padded.
fn unit(text: &str) -> [u8; 8] {
    let mut unit = [0; 8];
    unit[..text.len()].copy_from_slice(text.as_bytes());
    unit
}

/// The set with escaped titles, but every character is in the range of class 0, the title is one of class 0
/// or 1, and the keyword is a vertical tab.
fn any_title(class: u8, title: &str) -> Set {
    let set = escaped(unit(title), title.len() as u8);
    let any = [2, 0, 0, 0, 0xff, 0xff, 0x10, 0];
    let grammar = changed(&set.grammar, 1, &[any]);
    let grammar = changed(&grammar, 6, &[[4, 1, class, 0, 0, 0, 0, 0]]);
    Set {
        grammar: changed(&grammar, 8, &[unit("\u{B}")]),
        ..set
    }
}

/// The same with a literal in place of the title.
fn any_literal(class: u8, literal: &str) -> Set {
    let set = any_title(class, "a");
    let node = [5, 1, literal.len() as u8, 0, 2, 0, 0, 0];
    Set {
        templates: changed(&set.templates, 9, &[node, unit(literal)]),
        ..set
    }
}

#[test]
fn a_lexeme_has_only_characters_that_xml_admits() {
    let admitted = ["\t\n\r ", "\u{7F}\u{85}", "\u{FFFD}", "\u{1FFFE}\u{10FFFF}"];
    let others = [
        "a\u{B}", "\0", "\u{8}", "\u{C}", "\u{E}", "\u{1F}", "\u{FFFE}", "\u{FFFF}",
    ];
    for class in [0, 1] {
        for text in admitted {
            let written = format!("{text}\u{B}");
            let finished = [0, 0, 0, 5, written.len() as u64];
            case(&any_title(class, text), 9, 99, finished, &written);
            case(&any_literal(class, text), 9, 99, finished, &written);
        }
        for text in others {
            case(&any_title(class, text), 9, 99, [8, 3, 1, 0, 0], "");
            case(&any_literal(class, text), 9, 99, [7, 2, 9, 0, 0], "");
        }
    }
}

#[test]
fn unescaping_does_not_ask_what_xml_admits() {
    let mut plain = [GUARD; 9];
    let answer = feed::unescape("\u{B}&amp;\0\u{FFFE}".as_bytes(), &mut plain);
    assert_eq!(answer.fields(), [0, 0, 0, 0, 6]);
    assert_eq!(answer.written(&plain), "\u{B}&\0\u{FFFE}".as_bytes());
    assert_eq!(plain[6..], [GUARD; 3]);
}

#[test]
fn unescaping_writes_the_plain_text_or_nothing() {
    let text = b"&lt;b&gt;Salt &amp; Rope&lt;/b&gt;";
    let plain = b"<b>Salt & Rope</b>";
    for room in 0..24 {
        let mut output = [GUARD; 24];
        let answer = feed::unescape(text, &mut output[..room]);
        let written = if room < plain.len() { 0 } else { plain.len() };
        let number = if room < plain.len() { 12 } else { 0 };
        assert_eq!(answer.fields(), [number, 0, 0, 0, written as u64]);
        assert_eq!(output[..written], plain[..written]);
        assert!(output[written..].iter().all(|&byte| byte == GUARD));
    }
    let wrong: [&[u8]; 8] = [
        b"&",
        b"a<",
        b"&#38;",
        b"&amp",
        b"&lt",
        b"&AMP;",
        b"&amp;\x80",
        b"\xC0\xA6",
    ];
    for text in wrong {
        for room in [0, 24] {
            let mut output = vec![GUARD; room];
            let answer = feed::unescape(text, &mut output);
            assert_eq!(answer.fields(), [8, 0, 0, 0, 0]);
            assert_eq!(answer.refusal(), Some(Refusal::NotEscaped));
            assert!(output.iter().all(|&byte| byte == GUARD));
        }
    }
}

#[test]
fn the_scratch_is_judged_after_the_value() {
    let short = |set: &Set| evaluate(set, 1_000_000, 100, SCRATCH - 1).0.fields();
    assert_eq!(short(&example()), [9, 0, 0, 0, 0]);
    assert_eq!(
        short(&with_value(&[[2, 0, 0, 0, 0, 0, 0, 0]])),
        [8, 3, 0, 0, 0]
    );
    let (answer, _) = evaluate(&example(), 1_000_000, 100, SCRATCH + 100);
    assert_eq!(answer.number, 0);
}

#[test]
fn empty_slices_are_lent_safely() {
    let (grammar, templates) = (example().grammar, example().templates);
    assert_eq!(feed::check(&[], &[]).fields(), [1, 1, 0, 0, 0]);
    assert_eq!(feed::check(&grammar, &[]).fields(), [1, 2, 0, 0, 0]);
    let value = example().value;
    let nothing = |value: &[u8]| feed::evaluate(&grammar, &templates, value, 9, &mut [], &mut []);
    assert_eq!(nothing(&[]).fields(), [1, 3, 0, 0, 0]);
    assert_eq!(nothing(&value).refusal(), Some(Refusal::ScratchTooShort));
    let answer = feed::evaluate(&grammar, &templates, &value, 9, &mut [], &mut [1; SCRATCH]);
    assert_eq!(answer.refusal(), Some(Refusal::OutputFull { node: 4 }));
    assert_eq!(feed::pack(1, &[], &mut []).fields(), [1, 0, 0, 0, 0]);
    assert_eq!(
        feed::pack(1, &[1; 8], &mut []).refusal(),
        Some(Refusal::NoRoom)
    );
    assert_eq!(feed::unpack(1, &[], &mut []).fields(), [1, 0, 0, 0, 0]);
    assert_eq!(
        feed::unpack(1, &grammar, &mut []).refusal(),
        Some(Refusal::NoRoom)
    );
    assert_eq!(feed::unescape(&[], &mut []).fields(), [0; 5]);
    assert_eq!(
        feed::unescape(b"a", &mut []).refusal(),
        Some(Refusal::NoRoom)
    );
    assert!(feed::block_payload(&[], CHECK_START).is_empty());
}

#[test]
fn packing_leaves_what_follows_and_refused_all() {
    let payload: Vec<u8> = (0..1008_u32).map(|i| (7 * i + 3) as u8).collect();
    for length in [8_usize, 504, 512, 1008] {
        let size = length.div_ceil(504) * 512;
        let mut blocks = vec![GUARD; size + 8];
        assert_eq!(
            feed::pack(2, &payload[..length], &mut blocks).fields(),
            [0, 0, 0, 0, size as u64]
        );
        assert_eq!(blocks[size..], [GUARD; 8]);
        let mut back = vec![GUARD; 1016];
        let answer = feed::unpack(2, &blocks[..size], &mut back);
        let whole = size / 512 * 504;
        assert_eq!(answer.fields(), [0, 0, 0, 0, whole as u64]);
        assert_eq!(back[..length], payload[..length]);
        assert!(back[length..whole].iter().all(|&byte| byte == 0));
        assert!(back[whole..].iter().all(|&byte| byte == GUARD));
    }
    for (kind, length, room, number) in [
        (2, 7, 512, 1),
        (4, 8, 512, 2),
        (0, 8, 0, 2),
        (1, 8, 511, 12),
    ] {
        let mut blocks = vec![GUARD; room];
        assert_eq!(
            feed::pack(kind, &payload[..length], &mut blocks).fields(),
            [number, 0, 0, 0, 0]
        );
        assert!(blocks.iter().all(|&byte| byte == GUARD));
    }
}

#[test]
fn unpacking_names_the_wrong_block() {
    let mut blocks = [0; 1024];
    assert_eq!(feed::pack(1, &[5; 1008], &mut blocks).number, 0);
    let mut payload = [GUARD; 1008];
    let other_kind = feed::unpack(2, &blocks, &mut payload).refusal();
    assert_eq!(
        other_kind,
        Some(Refusal::Block {
            stream: Stream::Lent,
            block: 0
        })
    );
    blocks[1023] ^= 0x80;
    assert_eq!(
        feed::unpack(1, &blocks, &mut payload).fields(),
        [2, 0, 1, 0, 0]
    );
    assert_eq!(payload, [GUARD; 1008]);
}

#[test]
fn a_payload_lies_in_its_block() {
    let grammar = example().grammar;
    let payload = feed::block_payload(&grammar, CHECK_START);
    assert_eq!(payload.as_ptr(), grammar[feed::PAYLOAD_START..].as_ptr());
    assert_eq!(payload.len(), feed::PAYLOAD);
    for byte in [0, 1, 2, 3, 100, 511] {
        let mut damaged = grammar.clone();
        damaged[byte] ^= 4;
        assert!(
            feed::block_payload(&damaged, CHECK_START).is_empty(),
            "byte {byte}"
        );
    }
}

/// The check that a block holds.
fn check_of(block: &[u8]) -> u32 {
    u32::from_le_bytes(*block.last_chunk().expect("four bytes"))
}

#[test]
fn the_number_of_a_single_block_is_not_judged() {
    let mut blocks = [0; 1024];
    assert_eq!(feed::pack(1, &[5; 1008], &mut blocks).number, 0);
    let start = check_of(&blocks[..512]);
    assert_eq!(feed::block_payload(&blocks[512..], start), [5; 504]);
    assert!(feed::block_payload(&blocks, start).is_empty());
}

#[test]
fn a_single_block_is_judged_from_the_start_given() {
    let mut blocks = [0; 1024];
    assert_eq!(feed::pack(1, &[5; 1008], &mut blocks).number, 0);
    let (first, second) = blocks.split_at(512);
    let start = check_of(first);
    assert_eq!(feed::block_payload(first, CHECK_START), [5; 504]);
    assert!(feed::block_payload(first, start).is_empty());
    for other in [0, CHECK_START, start ^ 1, start ^ 1 << 31, u32::MAX] {
        assert!(feed::block_payload(second, other).is_empty(), "{other}");
    }
}

#[test]
fn blocks_of_two_uploads_are_refused_where_they_join() {
    let [mut one, mut two] = [[0; 9 * 512]; 2];
    assert_eq!(feed::pack(1, &[5; 9 * 504], &mut one).number, 0);
    assert_eq!(feed::pack(1, &[6; 9 * 504], &mut two).number, 0);
    for joint in 1..9 {
        let joined = [&one[..512 * joint], &two[512 * joint..]].concat();
        let mut payload = [GUARD; 9 * 504];
        let answer = feed::unpack(1, &joined, &mut payload);
        assert_eq!(answer.fields(), [2, 0, joint as u64, 0, 0]);
        assert_eq!(payload, [GUARD; 9 * 504]);
    }
}

/// The constants of the header for C are the wrapper's.
#[test]
fn the_header_has_the_same_constants() {
    let path = Path::new(env!("CARGO_MANIFEST_DIR")).join("../../include/feed.h");
    let header = std::fs::read_to_string(path).expect("the header");
    let defined = |name: &str| {
        let number = header.lines().find_map(|line| {
            let mut words = line.split_whitespace();
            let found = words.next() == Some("#define") && words.next() == Some(name);
            words.next().filter(|_| found)
        });
        let number = number.unwrap_or_else(|| panic!("no {name}"));
        number.trim_end_matches('u').parse::<u64>().expect(name)
    };
    assert_eq!(defined("FEED_BLOCK"), feed::BLOCK as u64);
    assert_eq!(defined("FEED_PAYLOAD"), feed::PAYLOAD as u64);
    assert_eq!(defined("FEED_PAYLOAD_START"), feed::PAYLOAD_START as u64);
    assert_eq!(defined("FEED_CHECK_START"), u64::from(CHECK_START));
    assert_eq!(defined("FEED_STREAM_MOST"), feed::STREAM_MOST as u64);
    assert_eq!(defined("FEED_SCRATCH"), SCRATCH as u64);
}
