//! Descriptions and streams with more productions than a byte counts, and the numbers of productions.

use super::desk::{desk_with, Desk};
use kit::streams::record::{packed, Found, Kind, Record};
use std::fs;

/// A show page with so many productions: the page, and one for each kind of part. Its template builds all.
fn show_page(count: usize) -> String {
    let parts = |part: fn(usize) -> String| (1..count).map(part).collect::<String>();
    format!(
        "class word 1 to 8 {{ 'a'-'z' }}\nproduction page of page = \"<page>\" part* \"</page>\"\n\
         {}type word = text word\ntemplate main (word: word) of page =\n  build page (sequence (\n\
         {}  ))\nvalue \"ab\"\n",
        parts(|it| format!("production part{it} of part = \"<p{it}>\" word\n")),
        parts(|it| format!("    build part{it} (place word)\n"))
    )
}

/// The text of a show page.
fn text(count: usize) -> String {
    let parts: String = (1..count).map(|it| format!("<p{it}>ab")).collect();
    format!("<page>{parts}</page>")
}

/// The streams of a show page, one of them with other records, in the folder `set`; without the map, which
/// wouldn't fit.
#[track_caller]
fn set_with(count: usize, kind: Kind, change: impl Fn(&mut [Record])) -> Desk {
    let desk = desk_with(show_page(count));
    assert_eq!(desk.kit(&["assemble", "feed.txt", "set"]).status, Some(0));
    fs::remove_file(desk.path("set/map.json")).expect("removed");
    let file = format!("set/{}", kind.file());
    let mut records = Found::read(&desk.read(&file), Some(kind)).records;
    change(&mut records);
    desk.with(&file, packed(kind, &records).expect("a stream"))
}

/// The record of a production's head. Behind the class of two records the page has six, and each part
/// four: its head, a keyword of one unit, and a class.
fn head_of(production: usize) -> usize {
    match production {
        0 => 2,
        _ => 8 + 4 * (production - 1),
    }
}

#[test]
fn a_show_page_of_700_productions() {
    let desk = desk_with(show_page(700));
    desk.kit(&["check", "feed.txt"])
        .done("feed.txt: accepted, and gives a text of 5497 bytes in 1400 steps\n");
    desk.kit(&["render", "feed.txt"]).done(&text(700));
    desk.kit(&["lint", "feed.txt"])
        .done("feed.txt: nothing to say\n");
    desk.kit(&["size", "feed.txt"]).done(
        "
grammar   2804 of 8064 records, 45 of 128 blocks, 35 % full
templates 2102 of 8064 records, 34 of 128 blocks, 27 % full
value     2 of 8064 records, 1 of 128 blocks, 1 % full
text      5497 of 65536 bytes, 1400 of 1000000 steps
",
    );
}

#[test]
fn a_show_page_of_thousands_of_productions() {
    let desk = desk_with(show_page(2_000));
    desk.kit(&["render", "feed.txt"]).done(&text(2_000));
    desk.kit(&["lint", "feed.txt"])
        .done("feed.txt: nothing to say\n");
    assert_eq!(desk.kit(&["assemble", "feed.txt", "set"]).status, Some(0));
    desk.kit(&["explain", "set"])
        .done("check: accepted\nevaluate: finished, 4000 steps, a text of 16897 bytes\n");
    let said = desk.kit(&["dump", "set/grammar.blk"]);
    assert_eq!(said.status, Some(0));
    assert!(said.out.contains(
        "     8000  production 1999 `part1999` of nonterminal 1 `part`: 2 elements  (2001:12)\n"
    ));
}

#[test]
fn more_productions_than_a_stream_holds() {
    desk_with(show_page(2_016))
        .kit(&["check", "feed.txt"])
        .refused(
            r#"
feed.txt:2017:12: the grammar takes 8068 records, and a stream holds 8064: from here on they don't fit
    production part2015 of part = "<p2015>" word
               ^
"#,
        );
}

/// A class's number is a byte, as before.
#[test]
fn the_257th_class() {
    let classes: String = (1..=256)
        .map(|it| format!("class c{it} 0 to 1 {{}}\n"))
        .collect();
    desk_with(show_page(2) + &classes)
        .kit(&["check", "feed.txt"])
        .refused(
            r#"
feed.txt:265:7: this is a class past the 256 that fit
    class c256 0 to 1 {}
          ^
"#,
        );
}

#[test]
fn a_build_above_255_that_breaks_a_rule() {
    let page = show_page(700).replace("build part300 (place word)", "build part300");
    let desk = desk_with(page);
    desk.kit(&["check", "feed.txt"]).refused(
        r#"
feed.txt:1004:5: a typing rule fails (refusal 7)
        build part300
        ^
  = production `part300` has 1 element that is no keyword, and none stands here
  = it asks for class `word`
  = rule: "A build with another number of children, or an expand with another number of paths, breaks the typing."
"#,
    );
    assert_eq!(desk.kit(&["assemble", "feed.txt", "set"]).status, Some(0));
    desk.kit(&["explain", "set"]).reported(
        r#"
check: the templates, record 902: a typing rule fails (refusal 7)
    "A build with another number of children, or an expand with another number of paths, breaks the typing."
  template.blk
           ..
          1  template 0 `main` of nonterminal 0 `page`: 1 parameter, size 2099
           ..
          3    build production 0 `page`: 1 child, size 2097
          4      sequence of 699 items, size 2096
           ..
        899        build production 299 `part299`: 1 child, size 3
        900          place, size 2
        901            path `word`: variable 0
>       902        build production 300 `part300`: 0 children, size 1
        903        build production 301 `part301`: 1 child, size 3
        904          place, size 2
        905            path `word`: variable 0
  = line 1004, column 5 of `feed.txt`
  = production `part300` has 1 element that is no keyword, and none stands here
  = it asks for class `word`
evaluate: the same refusal
"#,
    );
}

#[test]
fn a_walk_that_stops_in_a_build_above_255() {
    desk_with(show_page(700))
        .kit(&["check", "feed.txt", "--output", "2000"])
        .refused(
            r#"
feed.txt:967:20: a keyword, lexeme or separator passes the end of the output (refusal 12)
        build part263 (place word)
                       ^
  = the text "ab" has 2 bytes, and 0 are left
  = the way there:
      template `main`
  = the walk took 528 steps with fuel 1000000 and wrote 2000 of 2000 bytes; the text so far ends with .. "ab<p259>ab<p260>ab<p261>ab<p262>ab<p263>"
  = an output of 5497 bytes would do
  = rule: "A keyword or lexeme passes the end of the output."
"#,
        );
}

/// The record of the build of a part's production.
fn build_of(production: usize) -> usize {
    5 + 3 * (production - 1)
}

#[test]
fn a_build_of_a_production_that_is_not_there() {
    let desk = set_with(700, Kind::Templates, |records| {
        let build = &mut records[build_of(299)];
        assert_eq!(build.0, [5, 0, 43, 1, 3, 0, 1, 0]);
        *build = Record::new(5, 0, [700, 3, 1]);
    });
    desk.kit(&["explain", "set"]).reported(
        r#"
check: the templates, record 899: a class, nonterminal, production, template or type named doesn't exist, or a field names no earlier type, or a text type names an escaped class (refusal 5)
    "A class, nonterminal, production, template or type named doesn't exist, or a field names no earlier type."
  template.blk
           ..
          1  template 0 of nonterminal 0: 1 parameter, size 2101
           ..
          3    build production 0: 1 child, size 2099
          4      sequence of 699 items, size 2098
           ..
        896        build production 298: 1 child, size 3
        897          place, size 2
        898            path: variable 0
>       899        build production 700: 1 child, size 3
        900          place, size 2
        901            path: variable 0
        902        build production 300: 1 child, size 3
  = there is no production 700: the last is production 699
evaluate: the same refusal
"#,
    );
}

/// As a writer makes them that keeps the low byte only.
#[test]
fn numbers_that_begin_again_at_256() {
    let desk = set_with(700, Kind::Grammar, |records| {
        for production in 256..700 {
            records[head_of(production)].0[4] = 0;
        }
    });
    desk.kit(&["explain", "set"]).reported(
        r#"
check: the grammar: the records break the layout (refusal 3)
    "The records break a layout above (place 0)."
    "Unused fields are zero. Text follows its head in units of 8 bytes, the last zero-padded; length 0 has no unit. After the last thing come zero records only, fewer than 63."
    "A production's number becomes a word: a holds its low byte and c its high byte."
  grammar.blk
           ..
       1025    keyword of 6 bytes
       1026      "<p255>"
       1027    class 0
>      1028  production 0 of nonterminal 1: 2 elements
       1029    keyword of 6 bytes
       1030      "<p256>"
       1031    class 0
  the kit finds odd at record 1028: this production has the number 0 (a 0, c 0), and the next in the row is 256 (a 0, c 1)
evaluate: the same refusal
"#,
    );
}

/// What `explain` and `dump` say of one production with other bytes, whose number should have these.
#[track_caller]
fn out_of_row(production: usize, [a, c]: [u8; 2], own: &str, due: &str) {
    let at = head_of(production);
    let desk = set_with(300, Kind::Grammar, |records| {
        records[at].0[1] = a;
        records[at].0[4] = c;
    });
    let odd = format!("this production has the number {own}, and the next in the row is {due}");
    let explain = desk.kit(&["explain", "set"]).out;
    assert!(explain.starts_with("check: the grammar: the records break the layout (refusal 3)\n"));
    let line = format!("  the kit finds odd at record {at}: {odd}\n");
    assert!(explain.contains(&line), "{explain}");
    let dump = desk.kit(&["dump", "set/grammar.blk"]).out;
    let marks: Vec<&str> = dump.lines().filter(|line| line.starts_with('!')).collect();
    assert_eq!(marks, [format!("!            {odd}")]);
}

#[test]
fn numbers_with_a_wrong_high_byte() {
    out_of_row(0, [0, 1], "256 (a 0, c 1)", "0 (a 0, c 0)");
    out_of_row(255, [255, 1], "511 (a 255, c 1)", "255 (a 255, c 0)");
    out_of_row(256, [0, 2], "512 (a 0, c 2)", "256 (a 0, c 1)");
    out_of_row(257, [1, 0], "1 (a 1, c 0)", "257 (a 1, c 1)");
}

#[test]
fn numbers_whose_bytes_are_exchanged() {
    out_of_row(1, [0, 1], "256 (a 0, c 1)", "1 (a 1, c 0)");
    out_of_row(256, [1, 0], "1 (a 1, c 0)", "256 (a 0, c 1)");
    out_of_row(258, [1, 2], "513 (a 1, c 2)", "258 (a 2, c 1)");
}
