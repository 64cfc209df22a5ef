//! Streams with variants and matches: their map, `kit dump`, and `kit explain` of streams that are changed,
//! and of walks through arms.

use super::desk::{desk_with, Desk};
use super::variants::changed;
use kit::streams::record::{packed, Found, Kind, Record};
use std::fs;

/// The streams of the page with another record, in the folder `set`; without the map, which wouldn't fit.
#[track_caller]
fn set_with(kind: Kind, place: usize, record: [u8; 8]) -> Desk {
    let desk = desk_with(changed("", ""));
    assert_eq!(desk.kit(&["assemble", "feed.txt", "set"]).status, Some(0));
    fs::remove_file(desk.path("set/map.json")).expect("removed");
    let file = format!("set/{}", kind.file());
    let mut records = Found::read(&desk.read(&file), Some(kind)).records;
    records[place] = Record(record);
    desk.with(&file, packed(kind, &records).expect("a stream"))
}

#[test]
fn a_stream_with_a_case_that_is_not_there() {
    set_with(Kind::Value, 5, [5, 7, 0, 0, 8, 0, 0, 0]).kit(&["explain", "set"]).reported(r#"
check: accepted
evaluate: the value, record 5: the value isn't of its declared type (refusal 8)
    "Value record 5 is a case: a its number from 0, c size, one child; it is of the variant if there is such a case and the child is of that case's type."
  value.blk
          0  list of 2 items, size 13
           ..
          2      record of 1 child, size 3
          3        text of 2 bytes, size 2
          4          "ab"
>         5    case 7, size 8
          6      record of 3 children, size 7
          7        text of 2 bytes, size 2
          8          "cd"
  = at `[1]`
  = type 4 is due here: a variant of 2 cases: 0, 1
  = case 7 stands here, and there is no such case
"#);
}

#[test]
fn a_stream_with_another_case() {
    set_with(Kind::Value, 5, [5, 0, 0, 0, 8, 0, 0, 0]).kit(&["explain", "set"]).reported(r#"
check: accepted
evaluate: the value, record 6: the value isn't of its declared type (refusal 8)
    "A value is of type text if it is a 1 whose text is a lexeme of the class; of yes/no if a 2; of a list if a 3 whose children are all of its item type; of a record if a 4 with one child for each field, in order, of that field's type."
  value.blk
          0  list of 2 items, size 13
           ..
          3        text of 2 bytes, size 2
          4          "ab"
          5    case 0, size 8
>         6      record of 3 children, size 7
          7        text of 2 bytes, size 2
          8          "cd"
          9        text of 2 bytes, size 2
  = at `[1].0`
  = type 2 is due here: a record of 1 field
  = a record of 3 fields stands here
"#);
}

#[test]
fn a_case_that_counts_children() {
    set_with(Kind::Value, 1, [5, 0, 0, 0, 4, 0, 1, 0]).kit(&["explain", "set"]).reported(r#"
check: accepted
evaluate: the value: the records break the layout (refusal 3)
    "The records break a layout above (place 0)."
    "Unused fields are zero. Text follows its head in units of 8 bytes, the last zero-padded; length 0 has no unit. After the last thing come zero records only, fewer than 63."
    "Size is the number of records of a thing, head and all below it."
  value.blk
          0  list of 2 items, size 13
>         1    case 0, size 4
          2      record of 1 child, size 3
          3        text of 2 bytes, size 2
          4          "ab"
  the kit finds odd at record 1: the unused field d is 1, not zero
"#);
}

#[test]
fn a_case_of_a_wrong_size() {
    set_with(Kind::Value, 1, [5, 0, 0, 0, 5, 0, 0, 0]).kit(&["explain", "set"]).reported(r#"
check: accepted
evaluate: the value: the records break the layout (refusal 3)
    "The records break a layout above (place 0)."
    "Unused fields are zero. Text follows its head in units of 8 bytes, the last zero-padded; length 0 has no unit. After the last thing come zero records only, fewer than 63."
    "Size is the number of records of a thing, head and all below it."
  value.blk
          0  list of 2 items, size 13
>         1    case 0, size 5
          2      record of 1 child, size 3
          3        text of 2 bytes, size 2
          4          "ab"
  the kit finds odd at record 1: it takes 4 records
"#);
}

#[test]
fn a_stream_with_a_variant_of_no_case() {
    set_with(Kind::Templates, 8, [1, 4, 0, 0, 0, 0, 0, 0]).kit(&["explain", "set"]).reported(r#"
check: the templates: the records break the layout (refusal 3)
    "The records break a layout above (place 0)."
    "Unused fields are zero. Text follows its head in units of 8 bytes, the last zero-padded; length 0 has no unit. After the last thing come zero records only, fewer than 63."
    "Size is the number of records of a thing, head and all below it."
  template.blk
           ..
          5    field 0: type 0
          6    field 1: type 1
          7    field 2: type 1
>         8  type 4: variant of 0 cases
          9  case 0: type 2
         10  case 0: type 3
         11  type 5: list of type 4
  the kit finds odd at record 8: a variant has 1 to 256 cases
evaluate: the same refusal
"#);
}

#[test]
fn a_match_with_b() {
    set_with(Kind::Templates, 18, [5, 7, 1, 0, 12, 0, 2, 0]).kit(&["explain", "set"]).reported(r#"
check: the templates: the records break the layout (refusal 3)
    "The records break a layout above (place 0)."
    "Unused fields are zero. Text follows its head in units of 8 bytes, the last zero-padded; length 0 has no unit. After the last thing come zero records only, fewer than 63."
    "Size is the number of records of a thing, head and all below it."
  template.blk
           ..
         12  template 0 of nonterminal 0: 1 parameter, size 18
           ..
         14    build production 0: 1 child, size 16
         15      sequence of 1 item, size 15
         16        for, size 14
         17          path: variable 0
>        18          match of 2 arms, size 12
         19            path: variable 1
         20            build production 1: 1 child, size 3
         21              place, size 2
  the kit finds odd at record 18: the unused field b is 1, not zero
evaluate: the same refusal
"#);
}

#[test]
fn a_stream_with_a_match_on_a_list() {
    set_with(Kind::Templates, 19, [6, 0, 0, 0, 0, 0, 0, 0]).kit(&["explain", "set"]).reported(r#"
check: the templates, record 18: a typing rule fails (refusal 7)
    "Node form 7 is match: a path, then d nodes, one for each case in order, each seeing one more variable, the case's content. A missing or extra arm fails typing."
  template.blk
           ..
         12  template 0 of nonterminal 0: 1 parameter, size 18
           ..
         14    build production 0: 1 child, size 16
         15      sequence of 1 item, size 15
         16        for, size 14
         17          path: variable 0
>        18          match of 2 arms, size 12
         19            path: variable 0
         20            build production 1: 1 child, size 3
         21              place, size 2
  = a match asks for a variant, and the path (variable 0) finds a list (type 5)
evaluate: the same refusal
"#);
}

#[test]
fn a_stream_with_a_later_case() {
    set_with(Kind::Templates, 10, [2, 0, 5, 0, 0, 0, 0, 0]).kit(&["explain", "set"]).reported(r#"
check: the templates, record 10: a class, nonterminal, production, template or type named doesn't exist, or a field names no earlier type, or a text type names an escaped class (refusal 5)
    "A class, nonterminal, production, template or type named doesn't exist, or a field names no earlier type."
  template.blk
           ..
          7    field 2: type 1
          8  type 4: variant of 2 cases
          9    case 0: type 2
>        10    case 1: type 5
         11  type 5: list of type 4
         12  template 0 of nonterminal 0: 1 parameter, size 18
         13    parameter 0: type 5
  = case 1 of type 4 is of type 5, which comes later: a case's type stands earlier than its variant
evaluate: the same refusal
"#);
}

#[test]
fn a_map_names_cases_and_what_arms_call_them() {
    let desk = desk_with(changed("", ""));
    assert_eq!(desk.kit(&["assemble", "feed.txt", "set"]).status, Some(0));
    let map = String::from_utf8(desk.read("set/map.json")).expect("a text");
    let lines: Vec<&str> = map.lines().filter(|line| line.contains("\"case")).collect();
    assert_eq!(
        lines,
        [
            r#"  {"line": 12, "column": 25, "case": "audio"},"#,
            r#"  {"line": 12, "column": 39, "case": "video"},"#,
            r#"  {"line": 21, "column": 31, "case": "audio", "case variable": "sound"},"#,
            r#"  {"line": 20, "column": 30, "case": "video", "case variable": "film"},"#
        ]
    );
}

#[test]
fn a_dump_names_cases_and_arms_by_the_map() {
    let desk = desk_with(changed("", ""));
    assert_eq!(desk.kit(&["assemble", "feed.txt", "set"]).status, Some(0));
    desk.kit(&["dump", "set/template.blk"]).done(r#"
set/template.blk: templates, 1 block, 63 records
lines and columns are those of `feed.txt`
        0  type 0 `word`: text of class 0 `word`  (8:6)
        1  type 1 `number`: text of class 1 `number`  (9:6)
        2  type 2 `audio`: record of 1 field  (10:6)
        3    field 0 `title`: type 0 `word`  (10:23)
        4  type 3 `video`: record of 3 fields  (11:6)
        5    field 0 `title`: type 0 `word`  (11:23)
        6    field 1 `width`: type 1 `number`  (11:36)
        7    field 2 `height`: type 1 `number`  (11:51)
        8  type 4 `medium`: variant of 2 cases  (12:6)
        9    case 0 `audio`: type 2 `audio`  (12:25)
       10    case 1 `video`: type 3 `video`  (12:39)
       11  type 5 `media`: list of type 4 `medium`  (13:6)
       12  template 0 `main` of nonterminal 0 `page`: 1 parameter, size 18  (15:10)
       13    parameter 0 `media`: type 5 `media`  (15:16)
       14    build production 0 `page`: 1 child, size 16  (16:3)
       15      sequence of 1 item, size 15  (17:5)
       16        for `medium`, size 14  (18:7)
       17          path `media`: variable 0  (18:21)
       18          match of 2 arms, size 12  (19:9)
       19            path `medium`: variable 1  (19:15)
       20            build production 1 `sound`: 1 child, size 3, for case `audio` as `sound`  (21:31)
       21              place, size 2  (21:44)
       22                path `sound.title`: variable 2, field 0  (21:50)
       23            build production 2 `film`: 3 children, size 7, for case `video` as `film`  (20:30)
       24              place, size 2  (20:42)
       25                path `film.title`: variable 2, field 0  (20:48)
       26              place, size 2  (20:59)
       27                path `film.width`: variable 2, field 1  (20:65)
       28              place, size 2  (20:76)
       29                path `film.height`: variable 2, field 2  (20:82)
    30-62  33 zero records
"#);
}

#[test]
fn a_dump_of_cases() {
    let desk = desk_with(changed("", ""));
    assert_eq!(desk.kit(&["assemble", "feed.txt", "set"]).status, Some(0));
    desk.kit(&["dump", "set/value.blk"]).done(
        r#"
set/value.blk: value, 1 block, 63 records
        0  list of 2 items, size 13
        1    case 0, size 4
        2      record of 1 child, size 3
        3        text of 2 bytes, size 2
        4          "ab"
        5    case 1, size 8
        6      record of 3 children, size 7
        7        text of 2 bytes, size 2
        8          "cd"
        9        text of 2 bytes, size 2
       10          "12"
       11        text of 1 byte, size 2
       12          "7"
    13-62  50 zero records
"#,
    );
}

#[test]
fn fuel_that_is_spent_in_an_arm() {
    let desk = desk_with(changed("", ""));
    assert_eq!(desk.kit(&["assemble", "feed.txt", "set"]).status, Some(0));
    desk.kit(&["explain", "set", "--fuel", "9"]).reported(r#"
check: accepted
evaluate: the templates, record 26: a node is reached with all fuel used (refusal 10)
    "A node is reached with all fuel (32 bits) used; it isn't counted as a step."
  template.blk
           ..
         12  template 0 `main` of nonterminal 0 `page`: 1 parameter, size 18
           ..
         14    build production 0 `page`: 1 child, size 16
         15      sequence of 1 item, size 15
         16        for `medium`, size 14
           ..
         18          match of 2 arms, size 12
           ..
         23            build production 2 `film`: 3 children, size 7, for case `video` as `film`
         24              place, size 2
         25                path `film.title`: variable 2, field 0
>        26              place, size 2
         27                path `film.width`: variable 2, field 1
         28              place, size 2
         29                path `film.height`: variable 2, field 2
  = line 20, column 59 of `feed.txt`
  = the way there:
      template `main`
      for `medium`, item 2 of 2
      case `video` as `film`
  = the walk took 9 steps with fuel 9 and wrote 11 of 65536 bytes; the text so far ends with "a:ab, v:cd "
  = fuel of 11 would do
"#);
    fs::remove_file(desk.path("set/map.json")).expect("removed");
    let said = desk.kit(&["explain", "set", "--fuel", "9"]);
    let way = "  = the way there:\n      template 0\n      for (variable 1), item 2 of 2\n      case 1 (variable 2)\n";
    assert!(said.out.contains(way), "{}", said.out);
}

/// The for and 16 arms; one arm less is taken.
#[test]
fn arms_are_loops_toward_their_limit() {
    let page = changed("", "");
    let start = page.find("match medium (").expect("a match");
    let end = page.find("        )\n").expect("its end") + 9;
    let nested = |count: usize| {
        let arms = r#"match medium (audio as a then build sound (literal "a") video as v then "#;
        let inner = r#"build sound (literal "a")"#;
        let body = format!("{}{inner}{}", arms.repeat(count), ")".repeat(count));
        desk_with(format!("{}{body}{}", &page[..start], &page[end..])).kit(&["check", "feed.txt"])
    };
    assert_eq!(nested(15).status, Some(0));
    nested(16).refused(r#"
feed.txt:19:1119: a template node is over 200 deep, or a template has over 8 parameters, or over 16 loops stand around a node (refusal 4)
    .. (literal "a") video as v then match medium (audio as a then build sound (literal "a") video as v the ..
                                                                   ^
  = 17 loops (1 for and 16 arms of matches) stand around this node, and 16 are the most
  = rule: "A template node or value is over 200 deep (body and whole value count 1), or a template has over 8 parameters, or over 16 loops stand around a node."
"#);
}
