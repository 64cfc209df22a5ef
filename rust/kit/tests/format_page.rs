//! The page of the streams' format (`docs/FORMAT.md`) against the proved library: its records, checks,
//! answers and tables are read from it, and each must be what the library makes or answers.

mod page;

use page::example::{head, packed, with_byte, Run, EXAMPLES, STREAMS};
use page::{bytes, check, fenced, number, read, table};

fn checks(stream: &[u8]) -> Vec<u32> {
    let check = |block: &[u8]| u32::from_le_bytes(block[508..].try_into().expect("four bytes"));
    stream.chunks(feed::BLOCK).map(check).collect()
}

/// The steps of the check, spelled out as they are on the page.
fn fnv1a(start: u32, bytes: &[u8]) -> u32 {
    let step = |h: u32, &byte: &u8| (h ^ u32::from(byte)).wrapping_mul(16_777_619);
    bytes.iter().fold(start, step)
}

/// The five fields as the page writes them.
fn fields(answer: [u64; 5]) -> String {
    answer.map(|it| it.to_string()).join(" ")
}

#[test]
fn the_records_shown_are_those_of_the_files() {
    for (stream, name) in STREAMS.iter().enumerate() {
        let file = read(&format!("examples/harbour/{name}.blk"));
        let mut payload = vec![1; feed::PAYLOAD];
        let answer = feed::unpack(stream as u8 + 1, &file, &mut payload);
        assert_eq!(answer.fields(), [0, 0, 0, 0, 504]);
        let mut records: Vec<u8> = Run::of(EXAMPLES[0]).records[stream].concat();
        records.resize(feed::PAYLOAD, 0);
        assert_eq!(records, payload, "{name}");
    }
}

#[test]
fn the_block_shown_is_the_whole_file() {
    let mut block = Vec::new();
    for line in fenced("the block of examples/harbour/value.blk") {
        let (offset, rest) = line.trim_start().split_once(' ').expect("an offset");
        assert_eq!(number(offset), block.len(), "{line}");
        block.extend(bytes(rest).0);
    }
    assert_eq!(block, read("examples/harbour/value.blk"));
}

#[test]
fn the_checks_shown_are_those_of_the_streams() {
    let rows = table("## An example, byte by byte", "| stream | bytes 0-3 |");
    assert_eq!(rows.len(), 9);
    for (at, row) in rows.iter().enumerate() {
        let (example, stream) = (EXAMPLES[at / 3], at % 3);
        assert_eq!(row[0], format!("{example}/{}.blk", STREAMS[stream]));
        let records = &Run::of(example).records[stream];
        let block = packed(stream + 1, records.as_flattened());
        assert_eq!(bytes(&row[1]).0, block[..4], "{row:?}");
        assert_eq!(number(&row[2]), records.len(), "{row:?}");
        assert_eq!(number(&row[3]), 63 - records.len(), "{row:?}");
        assert_eq!(bytes(&row[4]).0, block[508..], "{row:?}");
        assert_eq!([check(&row[5])], checks(&block)[..], "{row:?}");
    }
}

/// The example's block has the check that the steps give.
#[test]
fn the_test_values_of_fnv_are_what_its_steps_give() {
    let block = read("examples/harbour/value.blk");
    assert_eq!(
        [fnv1a(feed::CHECK_START, &block[..508])],
        checks(&block)[..]
    );
    for row in table("### The check", "| start | bytes") {
        let text = if row[1] == "none" { "" } else { &row[1] };
        assert_eq!(
            fnv1a(check(&row[0]), text.as_bytes()),
            check(&row[2]),
            "{row:?}"
        );
    }
}

/// The wrong check of block 1 starts where block 0 does, and is refused.
#[test]
fn the_test_values_of_packing_are_what_is_packed() {
    let rows = table("### Packing", "| payload |");
    let counting: Vec<u8> = (0..512).map(|i| (i % 256) as u8).collect();
    let payloads = [
        ("64 records, byte i of the payload is i mod 256", counting),
        ("126 records of zeros", vec![0; 1008]),
    ];
    assert_eq!(rows.len(), payloads.len());
    for (row, (says, payload)) in rows.iter().zip(payloads) {
        assert_eq!(row[0], says);
        let mut stream = packed(3, &payload);
        assert_eq!(checks(&stream), [check(&row[1]), check(&row[2])], "{row:?}");
        let wrong = fnv1a(feed::CHECK_START, &stream[512..1020]);
        assert_eq!(wrong, check(&row[3]), "{row:?}");
        stream[1020..].copy_from_slice(&wrong.to_le_bytes());
        let answer = feed::unpack(3, &stream, &mut [0; 1008]);
        assert_eq!(answer.fields(), [2, 0, 1, 0, 0]);
    }
}

/// With fuel for the visits before it, the run ends at the node of a row.
#[test]
fn the_visits_are_where_the_page_has_them() {
    let rows = table("## An example, byte by byte", "| step | place |");
    for (before, row) in rows.iter().enumerate() {
        let mut run = Run::of(EXAMPLES[0]);
        run.fuel = before as u32;
        let [step, place, bytes] = [0, 1, 4].map(|cell| number(&row[cell]) as u64);
        assert_eq!(step, before as u64 + 1);
        assert_eq!(run.answer().0, [10, 2, place, before as u64, bytes]);
    }
    assert_eq!(Run::of(EXAMPLES[0]).answer().0[3], rows.len() as u64);
}

/// Where the page changes its examples, each with the one that is changed.
const CHANGES: [(&str, &str); 4] = [
    ("### Changes of it, and their answers", EXAMPLES[0]),
    ("### Productions above 255", EXAMPLES[0]),
    ("### Changes of the second example", EXAMPLES[1]),
    ("### Changes of the third example", EXAMPLES[2]),
];

/// The refusals are 1 to 12, in order; each is met by some change, with a kind that its row has.
#[test]
fn the_changes_have_their_answers_and_meet_every_refusal() {
    let refusals = table("## The refusals", "| number |");
    let numbers: Vec<_> = refusals.iter().map(|row| number(&row[0])).collect();
    assert_eq!(numbers, (1..=12).collect::<Vec<_>>());
    let mut met = [0; 13];
    for (heading, example) in CHANGES {
        for row in table(heading, "| change |") {
            let mut run = Run::of(example);
            row[0].split("; ").for_each(|change| run.change(change));
            let answer = run.answer().0;
            assert_eq!(fields(answer), row[1], "{row:?}");
            let [refusal, kind] = [answer[0] as usize, answer[1] as usize];
            met[refusal] += 1;
            let kinds = refusal.checked_sub(1).map_or("0", |at| &refusals[at][2]);
            assert!(kinds.split(", ").any(|it| number(it) == kind), "{row:?}");
        }
    }
    assert!(met.iter().all(|&times| times > 0), "{met:?}");
}

const HEADINGS: [&str; 3] = ["## The grammar", "## The templates", "## The value"];

/// The rows of the three tables of records, as kinds, and forms where a kind has them.
#[test]
fn every_kind_and_form_has_its_row() {
    let due = [
        "1 2 3 4:0 4:1 4:2 4:3 4:4 5",
        "1:0 1:1 1:2 1:3 1:4 2 3 4 5:0 5:1 5:2 5:3 5:4 5:5 5:6 5:7 6",
        "1 2 3 4 5",
    ];
    let row = |row: &Vec<String>| match row[2].parse::<u8>() {
        Ok(form) => format!("{}:{form}", row[0]),
        Err(_) => row[0].clone(),
    };
    for (heading, due) in HEADINGS.into_iter().zip(due) {
        let rows: Vec<_> = table(heading, "| kind |").iter().map(row).collect();
        assert_eq!(rows.join(" "), due, "{heading}");
    }
}

/// Where a row says `zero`, a one in that field is refusal 3; so it is behind a range and a path.
#[test]
fn what_the_tables_call_zero_must_be_zero() {
    for (stream, heading) in HEADINGS.into_iter().enumerate() {
        let refused = [3, stream as u64 + 1, 0, 0, 0];
        for row in table(heading, "| kind |") {
            let head = head(stream, row[0].parse().expect("a kind"), row[2].parse().ok());
            for (cell, byte) in [(2, 1), (3, 2), (4, 4), (5, 6)] {
                if row[cell] == "zero" {
                    let record = Run::of(head.0).records[stream][head.1];
                    assert_eq!(record[byte], 0, "{row:?}");
                    assert_eq!(with_byte(stream, head, byte, 1), refused, "{row:?}");
                }
            }
        }
    }
    assert_eq!(with_byte(0, head(0, 2, None), 7, 1), [3, 1, 0, 0, 0]);
    assert_eq!(with_byte(1, head(1, 6, None), 3, 1), [3, 2, 0, 0, 0]);
    assert_eq!(with_byte(1, head(1, 6, None), 2, 6), [3, 2, 0, 0, 0]);
}

/// The records that name something: stream, kind and forms.
const NAMING: [&str; 10] = [
    "grammar 5 ",
    "grammar 4 1",
    "grammar 4 2, 3, 4",
    "templates 1 0",
    "templates 1 2",
    "templates 2 ",
    "templates 3 ",
    "templates 4 ",
    "templates 5 0",
    "templates 5 3",
];

/// A number that nothing has, in a field that names, is refused there.
#[test]
fn what_is_named_must_be_there() {
    let rows = table("## What names what", "| stream | kind |");
    let naming = rows.iter().map(|row| row[..3].join(" "));
    assert_eq!(naming.collect::<Vec<_>>(), NAMING);
    for row in rows {
        let stream = usize::from(row[0] == "templates");
        assert_eq!(row[3], "b");
        for form in row[2].split(", ") {
            let head = head(stream, row[1].parse().expect("a kind"), form.parse().ok());
            let refused = [number(&row[5]), stream + 1, head.1, 0, 0].map(|it| it as u64);
            assert_eq!(with_byte(stream, head, 3, 0xff), refused, "{row:?}");
        }
    }
}

#[test]
fn the_entities_stand_for_their_characters() {
    let rows = table("## Lexemes", "| character |");
    assert_eq!(rows.len(), 5);
    for row in rows {
        let mut plain = [0; 1];
        let answer = feed::unescape(row[2].as_bytes(), &mut plain);
        assert_eq!(answer.fields(), [0, 0, 0, 0, 1], "{row:?}");
        assert_eq!(plain, row[0].as_bytes(), "{row:?}");
        assert_eq!(format!("U+{:04X}", plain[0]), row[1]);
    }
}

#[test]
fn the_other_examples_have_their_answers_and_texts() {
    for example in &EXAMPLES[1..] {
        let (answer, text) = Run::of(example).answer();
        let shown = fenced(&fields(answer));
        assert_eq!(text, shown.concat().as_bytes());
    }
}
