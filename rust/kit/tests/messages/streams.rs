//! Streams as they are found: `kit dump`, `kit explain` and `kit repack` of sound, damaged and old ones.

use super::desk::{changed, desk, desk_with, Desk};
use std::fs;
use std::path::{Path, PathBuf};

const FILES: [&str; 3] = ["grammar.blk", "template.blk", "value.blk"];

fn example(name: &str) -> PathBuf {
    let examples = Path::new(env!("CARGO_MANIFEST_DIR")).join("../../examples");
    examples.join(name)
}

/// A fresh folder with an example's streams, without their map.
#[track_caller]
fn streams_of(name: &str) -> Desk {
    FILES.iter().fold(desk(), |desk, file| {
        let stream = fs::read(example(name).join(file)).expect("a stream");
        desk.with(file, stream)
    })
}

fn read_all(desk: &Desk) -> [Vec<u8>; 3] {
    FILES.map(|file| desk.read(file))
}

#[test]
fn assemble_makes_the_streams_of_an_example() {
    let description = fs::read(example("harbour/feed.txt")).expect("a description");
    let desk = desk_with(description);
    assert_eq!(
        desk.kit(&["assemble", "feed.txt", "below/set"]).status,
        Some(0)
    );
    for file in FILES.iter().chain(&["map.json"]) {
        let kept = fs::read(example("harbour").join(file)).expect("a file");
        assert_eq!(desk.read(&format!("below/set/{file}")), kept, "{file}");
    }
}

#[test]
fn a_dump() {
    streams_of("harbour").kit(&["dump", "value.blk"]).done(
        r#"
value.blk: value, 1 block, 63 records
        0  list of 2 items, size 5
        1    text of 2 bytes, size 2
        2      "ab"
        3    text of 8 bytes, size 2
        4      "αβγδ"
     5-62  58 zero records
"#,
    );
}

#[test]
fn a_dump_of_a_damaged_stream() {
    let desk = streams_of("harbour");
    let mut bytes = desk.read("value.blk");
    bytes[2] = 1;
    let desk = desk.with("value.blk", bytes);
    desk.kit(&["dump", "value.blk"]).reported(r#"
value.blk: grammar, 1 block, 63 records, 1 damaged block
! block 0: its check is 0x3c407393, and its bytes give 0x4c3e8ff9 from 0x811c9dc5, where block 0 starts
        0  production 1280 of nonterminal 0: 2 elements
!            this production has the number 1280 (a 0, c 5), and the next in the row is 0 (a 0, c 0)
        1  class 0: 2 to 2 characters, 0 ranges
!            an element is expected here
        2  bytes 61 62 00 00 00 00 00 00
!            no record of the grammar has kind 97
        3  class 0: 8 to 2 characters, 0 ranges
!            classes come before the productions
!            the next class is number 1
        4  bytes ce b1 ce b2 ce b3 ce b4
!            no record of the grammar has kind 206
     5-62  58 zero records
"#);
}

#[test]
fn a_dump_of_an_empty_file() {
    desk()
        .with("value.blk", "")
        .kit(&["dump", "value.blk"])
        .reported(
            r#"
value.blk: no kind, 0 blocks, 0 records
! the length: it is empty
"#,
        );
}

#[test]
fn explain_of_a_finished_text() {
    let expected = "check: accepted\nevaluate: finished, 7 steps, a text of 16 bytes\n";
    streams_of("harbour").kit(&["explain", "."]).done(expected);
    let folder = example("harbour").display().to_string();
    desk().kit(&["explain", &folder]).done(expected);
}

#[test]
fn explain_of_a_walk_by_numbers() {
    streams_of("harbour")
        .kit(&["explain", ".", "--fuel", "6"])
        .reported(
            r#"
check: accepted
evaluate: the templates, record 9: a node is reached with all fuel used (refusal 10)
    "A node is reached with all fuel (32 bits) used; it isn't counted as a step."
  template.blk
           ..
          2  template 0 of nonterminal 0: 1 parameter, size 9
           ..
          4    build production 0: 1 child, size 7
          5      sequence of 1 item, size 6
          6        for, size 5
          7          path: variable 0
          8          build production 1: 1 child, size 3
>         9            place, size 2
         10              path: variable 1
      11-62  52 zero records
  = the way there:
      template 0
      for (variable 1), item 2 of 2
  = the walk took 6 steps with fuel 6 and wrote 6 of 65536 bytes; the text so far ends with "[<ab><"
  = fuel of 7 would do
"#,
        );
}

#[test]
fn explain_of_a_walk_by_names() {
    let folder = example("harbour").display().to_string();
    desk().kit(&["explain", &folder, "--fuel", "6"]).reported(
        r#"
check: accepted
evaluate: the templates, record 9: a node is reached with all fuel used (refusal 10)
    "A node is reached with all fuel (32 bits) used; it isn't counted as a step."
  template.blk
           ..
          2  template 0 `main` of nonterminal 0 `list`: 1 parameter, size 9
           ..
          4    build production 0 `titles`: 1 child, size 7
          5      sequence of 1 item, size 6
          6        for `title`, size 5
          7          path `titles`: variable 0
          8          build production 1 `title_entry`: 1 child, size 3
>         9            place, size 2
         10              path `title`: variable 1
      11-62  52 zero records
  = line 14, column 49 of `feed.txt`
  = the way there:
      template `main`
      for `title`, item 2 of 2
  = the walk took 6 steps with fuel 6 and wrote 6 of 65536 bytes; the text so far ends with "[<ab><"
  = fuel of 7 would do
"#,
    );
}

/// The lines that the examples' page shows of it, in their order.
#[test]
fn explain_of_a_pasted_title() {
    let typed = fs::read_to_string(example("podcast/feed.txt")).expect("a description");
    let pasted = typed.replace("\"2. Salt & Rope\"", "\"2. Salt\u{B} & Rope\"");
    let desk = desk_with(pasted);
    assert_eq!(desk.kit(&["assemble", "feed.txt", "."]).status, Some(0));
    let said = desk.kit(&["explain", "."]);
    assert_eq!(said.status, Some(1));
    let page = fs::read_to_string(example("README.md")).expect("the page");
    let fenced = page.split("```").find(|part| part.contains("U+000B ("));
    let mut lines = said.out.lines();
    for line in fenced.expect("what the kit says").trim().lines() {
        assert!(line == ".." || lines.any(|said| said == line), "{line}");
    }
}

#[test]
fn a_stream_whose_length_is_wrong() {
    let desk = streams_of("harbour");
    let stream = desk.read("template.blk");
    desk.with("template.blk", &stream[..500])
        .kit(&["explain", "."])
        .reported(
            r#"
check: the templates: the length is zero, above 65,536 or no multiple of 512 (refusal 1)
    "A stream's length is zero, above 65,536 or no multiple of 512."
  template.blk has 500 bytes
evaluate: the same refusal
"#,
        );
}

#[test]
fn a_stream_whose_check_is_wrong() {
    let desk = streams_of("harbour");
    let mut stream = desk.read("grammar.blk");
    stream[100] ^= 1;
    desk.with("grammar.blk", stream)
        .kit(&["explain", "."])
        .reported(r#"
check: the grammar, block 0: a block has a wrong number, kind, byte 3 or check (refusal 2)
    "A block has a wrong number, kind, byte 3 or check (place: block)."
    "The check of each block now starts from the check of the block before it; block 0 still starts from 2166136261."
  grammar.blk, block 0: its check is 0xed1c4e47, and its bytes give 0x81ac351a from 0x811c9dc5, where block 0 starts
evaluate: the same refusal
"#);
}

/// No description gives such records: the size of the one title is another.
#[test]
fn a_stream_whose_layout_is_broken() {
    let desk = streams_of("harbour");
    let mut stream = desk.read("value.blk");
    stream[4 + 8 + 4] = 3;
    let check = old_check(&stream[..508]).to_le_bytes();
    stream[508..].copy_from_slice(&check);
    desk.with("value.blk", stream)
        .kit(&["explain", "."])
        .reported(r#"
check: accepted
evaluate: the value: the records break the layout (refusal 3)
    "The records break a layout above (place 0)."
    "Unused fields are zero. Text follows its head in units of 8 bytes, the last zero-padded; length 0 has no unit. After the last thing come zero records only, fewer than 63."
    "Size is the number of records of a thing, head and all below it."
  value.blk
          0  list of 2 items, size 5
>         1    text of 2 bytes, size 3
          2      "ab"
          3    text of 8 bytes, size 2
          4      "αβγδ"
  the kit finds odd at record 1: it takes 2 records
"#);
}

/// The check of a block that starts from nothing, as all did before request b.
fn old_check(bytes: &[u8]) -> u32 {
    let step = |hash: u32, byte: &u8| (hash ^ u32::from(*byte)).wrapping_mul(16_777_619);
    bytes.iter().fold(feed::CHECK_START, step)
}

/// The podcast as it was packed before request b.
#[track_caller]
fn old_podcast() -> Desk {
    let mut desk = streams_of("podcast");
    for file in FILES {
        let mut stream = desk.read(file);
        for block in stream.chunks_exact_mut(feed::BLOCK) {
            let (bytes, check) = block.split_at_mut(508);
            check.copy_from_slice(&old_check(bytes).to_le_bytes());
        }
        desk = desk.with(file, stream);
    }
    desk
}

#[test]
fn checks_of_the_old_kind_are_explained() {
    let desk = old_podcast();
    desk.kit(&["explain", "."]).reported(r#"
check: the grammar, block 1: a block has a wrong number, kind, byte 3 or check (refusal 2)
    "A block has a wrong number, kind, byte 3 or check (place: block)."
    "The check of each block now starts from the check of the block before it; block 0 still starts from 2166136261."
  grammar.blk, block 1: its check is 0xf49762b9, and its bytes give 0xa02ad0c3 from 0xd296e063, the check of block 0; it is a check of the old kind, which starts from 0x811c9dc5 in every block: `kit repack` packs such a stream anew
evaluate: the same refusal
"#);
    let dumped = desk.kit(&["dump", "value.blk"]);
    assert!(dumped.out.contains("! block 3: its check is 0x"));
}

#[test]
fn repack_of_a_folder() {
    let desk = old_podcast();
    desk.kit(&["repack", "."]).done(
        r#"
./grammar.blk: packed anew, 2048 bytes
./template.blk: packed anew, 1024 bytes
./value.blk: packed anew, 2048 bytes
"#,
    );
    assert_eq!(read_all(&desk), read_all(&streams_of("podcast")));
    desk.kit(&["repack", "."]).done(
        r#"
./grammar.blk: kept, its checks are right
./template.blk: kept, its checks are right
./value.blk: kept, its checks are right
"#,
    );
    assert_eq!(desk.names("."), FILES);
}

#[test]
fn repack_of_a_file_of_one_block() {
    let desk = streams_of("harbour");
    let stream = desk.read("value.blk");
    desk.kit(&["repack", "value.blk"])
        .done("value.blk: kept, its checks are right\n");
    assert_eq!(desk.read("value.blk"), stream);
}

#[test]
fn repack_of_a_damaged_stream_changes_nothing() {
    let desk = old_podcast();
    let mut value = desk.read("value.blk");
    value[700] ^= 1;
    let desk = desk.with("value.blk", value);
    let before = read_all(&desk);
    desk.kit(&["repack", "."]).refused(r#"
./value.blk: by the checks of now, block 1: its check is 0x5cce51ea, and its bytes give 0x33c161a3 from 0xe29c61e5, the check of block 0
./value.blk: by the old ones, block 1: its check is 0x5cce51ea, and its bytes give 0x228f5b43 from 0x811c9dc5, where every old check starts
nothing is packed anew
"#);
    assert_eq!(read_all(&desk), before);
}

#[test]
fn repack_of_a_folder_without_streams() {
    desk()
        .kit(&["repack", "."])
        .failed("kit: ./grammar.blk: there is no such file\n");
}

/// The map goes by the new checks, so it fits the streams that are packed anew.
#[test]
fn a_map_beside_streams_that_are_packed_anew() {
    let desk = desk_with(changed("", ""));
    assert_eq!(desk.kit(&["assemble", "feed.txt", "."]).status, Some(0));
    assert_eq!(desk.kit(&["repack", "."]).status, Some(0));
    let said = desk.kit(&["dump", "grammar.blk"]);
    assert!(said
        .out
        .contains("lines and columns are those of `feed.txt`\n"));
}
