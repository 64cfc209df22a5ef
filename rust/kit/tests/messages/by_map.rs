//! The map beside the streams: what `kit assemble` writes, and what `kit explain` says with it and without
//! it.

use super::desk::{changed, desk_with, Desk, Said, PAGE};
use std::fs;

/// The streams of the page with another part, in the folder `set`.
#[track_caller]
fn assembled(from: &str, to: &str) -> Desk {
    let desk = desk_with(changed(from, to));
    assert_eq!(desk.kit(&["assemble", "feed.txt", "set"]).status, Some(0));
    desk
}

fn explain(desk: &Desk) -> Said {
    desk.kit(&["explain", "set"])
}

#[test]
fn assemble_says_what_it_wrote() {
    let desk = desk_with(changed("", ""));
    desk.kit(&["assemble", "feed.txt", "set"]).done(
        r#"
set/grammar.blk: 512 bytes
set/template.blk: 512 bytes
set/value.blk: 512 bytes
set/map.json: 2345 bytes
"#,
    );
    assert_eq!(
        desk.names("set"),
        ["grammar.blk", "map.json", "template.blk", "value.blk"]
    );
}

#[test]
fn assemble_without_a_value() {
    let desk = desk_with(PAGE);
    desk.kit(&["assemble", "feed.txt", "set"]).done(
        r#"
set/grammar.blk: 512 bytes
set/template.blk: 512 bytes
set/value.blk: not written, since the description has no value (`kit value` makes one from JSON)
set/map.json: 2345 bytes
"#,
    );
    assert_eq!(
        desk.names("set"),
        ["grammar.blk", "map.json", "template.blk"]
    );
    explain(&desk).failed("kit: set/value.blk: there is no such file\n");
}

#[test]
fn a_map_has_a_line_for_each_record() {
    let description = "class c 1 to 2 { 'a' }\nproduction p of n = c n*\ntype t = text c\ntype r = record { a: t }\ntype l = list r\ntemplate main (l: l) of n =\n  build p (literal \"a\" sequence (for i in l do build p (place i.a sequence ())))\nvalue []\n";
    let desk = desk_with(description);
    assert_eq!(desk.kit(&["assemble", "feed.txt", "."]).status, Some(0));
    let map = String::from_utf8(desk.read("map.json")).expect("a text");
    assert_eq!(map, MAP);
}

/// The checks are those of the blocks' last four bytes.
const MAP: &str = r#"{
"map": 1,
"description": "feed.txt",
"grammar": {
 "checks": ["764b6894"],
 "records": [
  {"line": 1, "column": 7, "class": "c"},
  {"line": 1, "column": 18},
  {"line": 2, "column": 12, "production": "p", "nonterminal": "n"},
  {"line": 2, "column": 21, "class": "c"},
  {"line": 2, "column": 23, "nonterminal": "n"}
 ]
},
"templates": {
 "checks": ["2822f24b"],
 "records": [
  {"line": 3, "column": 6, "type": "t"},
  {"line": 4, "column": 6, "type": "r"},
  {"line": 4, "column": 19, "field": "a"},
  {"line": 5, "column": 6, "type": "l"},
  {"line": 6, "column": 10, "template": "main"},
  {"line": 6, "column": 16, "parameter": "l"},
  {"line": 7, "column": 3},
  {"line": 7, "column": 12},
  {"line": 7, "column": 20},
  {"line": 7, "column": 24},
  {"line": 7, "column": 34, "loop variable": "i"},
  {"line": 7, "column": 43, "path": "l"},
  {"line": 7, "column": 48},
  {"line": 7, "column": 57},
  {"line": 7, "column": 63, "path": "i.a"},
  {"line": 7, "column": 67}
 ]
}
}
"#;

#[test]
fn a_refusal_with_its_map() {
    explain(&assembled("place page.title", "place page.entries")).reported(
        r#"
check: the templates, record 12: a typing rule fails (refusal 7)
    "Class: a literal that is a lexeme, or a place whose path has type text of that very class."
  template.blk
           ..
          9  template 0 `main` of nonterminal 0 `page`: 1 parameter, size 10
         10    parameter 0 `page`: type 4 `page`
         11    build production 0 `page`: 2 children, size 8
>        12      place, size 2
         13        path `page.entries`: variable 0, field 1
         14      sequence of 1 item, size 5
         15        for `entry`, size 4
  = line 16, column 5 of `feed.txt`
  = class `word` is asked for here, by element 2 of production `page` (child 1)
  = the path `page.entries` finds a list (type `entries`), not a text
evaluate: the same refusal
"#,
    );
}

#[test]
fn a_refusal_without_a_map() {
    let desk = assembled("place page.title", "place page.entries");
    fs::remove_file(desk.path("set/map.json")).expect("removed");
    explain(&desk).reported(BY_NUMBERS);
}

#[test]
fn a_refusal_of_the_value_with_its_map() {
    explain(&assembled("word: \"cd\"", "word: \"cD\"")).reported(r#"
check: accepted
evaluate: the value, record 9: the value isn't of its declared type (refusal 8)
    "A lexeme of a class is well-formed UTF-8 (RFC 3629) with a character count from least to most, each character in some range. Counts are of characters, never bytes."
  value.blk
          0  record of 2 children, size 12
           ..
          3    list of 2 items, size 9
           ..
          6          "ab"
          7        no
          8      record of 2 children, size 4
>         9        text of 2 bytes, size 2
         10          "cD"
         11        yes
      12-62  51 zero records
  = at `entries[1].word`
  = a text of class `word` is due here: 1 to 8 characters of U+0061-U+007A U+0370-U+03FF
  = this text has 2 characters, and number 2, U+0044 ('D'), is in no range
"#);
}

#[test]
fn a_walk_with_its_map() {
    let desk = assembled("", "");
    desk.kit(&["explain", "set", "--output", "11"])
        .reported(r#"
check: accepted
evaluate: the templates, record 14: a keyword, lexeme or separator passes the end of the output (refusal 12)
    "The separator is written before every item but the first, whether from a for, the sequence itself or several fors in a row. It comes before the item's fuel and depth are tried, and where it passes the end, none of it is written and that is 12 with the sequence's place."
  template.blk
           ..
          9  template 0 `main` of nonterminal 0 `page`: 1 parameter, size 10
           ..
         11    build production 0 `page`: 2 children, size 8
         12      place, size 2
         13        path `page.title`: variable 0, field 0
>        14      sequence of 1 item, size 5
         15        for `entry`, size 4
         16          path `page.entries`: variable 0, field 1
         17          expand template 1 `line`: 1 path, size 2
  = line 17, column 5 of `feed.txt`
  = the separator ", " has 2 bytes, and 1 is left
  = the way there:
      template `main`
      for `entry`, item 2 of 2
  = the walk took 8 steps with fuel 1000000 and wrote 10 of 11 bytes; the text so far ends with "<αβ>(ab)"
  = an output of 16 bytes would do
"#);
}

/// What is said without a usable map.
const BY_NUMBERS: &str = r#"
check: the templates, record 12: a typing rule fails (refusal 7)
    "Class: a literal that is a lexeme, or a place whose path has type text of that very class."
  template.blk
           ..
          9  template 0 of nonterminal 0: 1 parameter, size 10
         10    parameter 0: type 4
         11    build production 0: 2 children, size 8
>        12      place, size 2
         13        path: variable 0, field 1
         14      sequence of 1 item, size 5
         15        for, size 4
  = class 0 is asked for here, by element 2 of production 0 (child 1)
  = the path (variable 0, field 1) finds a list (type 3), not a text
evaluate: the same refusal
"#;

/// The streams of a page with a mistake, and a map of another page.
#[test]
fn a_map_of_other_streams() {
    let desk = assembled("place page.title", "place page.entries")
        .with("feed.txt", changed("1 to 8", "1 to 9"));
    assert_eq!(desk.kit(&["assemble", "feed.txt", "other"]).status, Some(0));
    fs::copy(desk.path("other/map.json"), desk.path("set/map.json")).expect("copied");
    explain(&desk).is(1, BY_NUMBERS, r#"
set/map.json: this map doesn't fit the grammar and the templates, so things are called by their numbers
"#);
}

#[test]
fn a_map_where_one_stream_has_changed() {
    let desk = assembled("", "").with(
        "feed.txt",
        changed("place page.title", "place page.entries"),
    );
    assert_eq!(desk.kit(&["assemble", "feed.txt", "other"]).status, Some(0));
    fs::copy(
        desk.path("other/template.blk"),
        desk.path("set/template.blk"),
    )
    .expect("copied");
    explain(&desk).is(
        1,
        BY_NUMBERS,
        "set/map.json: this map doesn't fit the templates, so things are called by their numbers\n",
    );
}

#[test]
fn a_damaged_map() {
    let desk = assembled("place page.title", "place page.entries");
    let map = desk.read("set/map.json");
    let desk = desk.with("set/map.json", &map[..map.len() / 2]);
    explain(&desk).is(1, BY_NUMBERS, r#"
set/map.json: this is no map (line 37, column 42: `}` or `,` is expected here, not the end of the file: the `{` at line 37, column 3 is not closed), so things are called by their numbers
"#);
    let desk = desk.with("set/map.json", "{\"map\": 2}");
    explain(&desk).is(1, BY_NUMBERS, r#"
set/map.json: this is no map (line 1, column 1: this is no map of version 1), so things are called by their numbers
"#);
    let desk = desk.with("set/map.json", "\u{1b}[2J");
    explain(&desk).is(1, BY_NUMBERS, r#"
set/map.json: this is no map (line 1, column 1: a value is expected here, not `\u{1b}`), so things are called by their numbers
"#);
}

#[test]
fn a_map_that_can_not_be_read() {
    let desk = assembled("place page.title", "place page.entries");
    fs::remove_file(desk.path("set/map.json")).expect("removed");
    fs::create_dir(desk.path("set/map.json")).expect("a folder");
    explain(&desk).is(
        1,
        BY_NUMBERS,
        "set/map.json: this can't be read, so things are called by their numbers\n",
    );
}

/// A value has no part in the map: another value leaves it as it is.
#[test]
fn another_value_beside_the_map() {
    let data = "{\"title\": \"a\", \"entries\": []}";
    let desk = assembled("", "").with("data.json", data);
    assert_eq!(
        desk.kit(&["value", "feed.txt", "data.json", "set/value.blk"])
            .status,
        Some(0)
    );
    explain(&desk).done("check: accepted\nevaluate: finished, 4 steps, a text of 4 bytes\n");
}
