//! `kit dump` with the map beside a stream, and without it.

use super::desk::{changed, desk_with, Desk};
use std::fs;

/// The streams of the page, in the folder `set`.
#[track_caller]
fn assembled() -> Desk {
    let desk = desk_with(changed("", ""));
    assert_eq!(desk.kit(&["assemble", "feed.txt", "set"]).status, Some(0));
    desk
}

#[test]
fn a_dump_with_its_map() {
    let desk = assembled();
    desk.kit(&["dump", "set/template.blk"]).done(
        r#"
set/template.blk: templates, 1 block, 63 records
lines and columns are those of `feed.txt`
        0  type 0 `word`: text of class 0 `word`  (8:6)
        1  type 1 `flag`: yes/no  (9:6)
        2  type 2 `entry`: record of 2 fields  (10:6)
        3    field 0 `word`: type 0 `word`  (10:23)
        4    field 1 `loud`: type 1 `flag`  (10:35)
        5  type 3 `entries`: list of type 2 `entry`  (11:6)
        6  type 4 `page`: record of 2 fields  (12:6)
        7    field 0 `title`: type 0 `word`  (12:22)
        8    field 1 `entries`: type 3 `entries`  (12:35)
        9  template 0 `main` of nonterminal 0 `page`: 1 parameter, size 10  (14:10)
       10    parameter 0 `page`: type 4 `page`  (14:16)
       11    build production 0 `page`: 2 children, size 8  (15:3)
       12      place, size 2  (16:5)
       13        path `page.title`: variable 0, field 0  (16:11)
       14      sequence of 1 item, size 5  (17:5)
       15        for `entry`, size 4  (18:7)
       16          path `page.entries`: variable 0, field 1  (18:20)
       17          expand template 1 `line`: 1 path, size 2  (18:36)
       18            path `entry`: variable 1  (18:49)
       19  template 1 `line` of nonterminal 1 `item`: 1 parameter, size 10  (21:10)
       20    parameter 0 `entry`: type 2 `entry`  (21:16)
       21    if, size 8  (22:3)
       22      path `entry.loud`: variable 0, field 1  (22:6)
       23      build production 2 `note`: 1 child, size 3  (22:22)
       24        place, size 2  (22:34)
       25          path `entry.word`: variable 0, field 0  (22:40)
       26      build production 1 `entry`: 1 child, size 3  (22:57)
       27        place, size 2  (22:70)
       28          path `entry.word`: variable 0, field 0  (22:76)
    29-62  34 zero records
"#,
    );
}

#[test]
fn a_dump_without_a_map() {
    let desk = assembled();
    fs::remove_file(desk.path("set/map.json")).expect("removed");
    desk.kit(&["dump", "set/grammar.blk"]).done(DUMPED);
}

/// The grammar by its numbers.
const DUMPED: &str = r#"
set/grammar.blk: grammar, 1 block, 63 records
        0  class 0: 1 to 8 characters, 2 ranges
        1    range U+0061-U+007A
        2    range U+0370-U+03FF
        3  class 1: the escaped form of class 0
        4  production 0 of nonterminal 0: 5 elements
        5    keyword of 1 byte
        6      "<"
        7    class 0
        8    keyword of 1 byte
        9      ">"
       10    repetition of nonterminal 1 with a separator of 2 bytes
       11      ", "
       12    keyword of 1 byte
       13      "."
       14  production 1 of nonterminal 1: 3 elements
       15    keyword of 1 byte
       16      "("
       17    class 0
       18    keyword of 1 byte
       19      ")"
       20  production 2 of nonterminal 1: 2 elements
       21    keyword of 1 byte
       22      "!"
       23    class 1
    24-62  39 zero records
"#;

#[test]
fn a_dump_with_a_map_of_another_stream() {
    let desk = assembled().with("feed.txt", changed("1 to 8", "1 to 9"));
    assert_eq!(desk.kit(&["assemble", "feed.txt", "other"]).status, Some(0));
    fs::copy(desk.path("other/map.json"), desk.path("set/map.json")).expect("copied");
    desk.kit(&["dump", "set/grammar.blk"]).is(
        0,
        DUMPED,
        "set/map.json: this map doesn't fit the grammar, so things are called by their numbers\n",
    );
}
