//! Where a message points: the line, the column and the mark below it, whatever stands in the line.

use super::desk::{changed, desk_with, Said, PAGE};

#[track_caller]
fn check(description: impl AsRef<[u8]>) -> Said {
    desk_with(description).kit(&["check", "feed.txt"])
}

#[test]
fn a_mark_behind_greek_letters() {
    check(changed(
        "word: \"ab\" loud: no",
        "word: \"αβγ\" loud: \"αβγ\"",
    ))
    .refused(r#"
feed.txt:24:52: the value isn't of its declared type (refusal 8)
    value { title: "αβ" entries: [ { word: "αβγ" loud: "αβγ" } { word: "cd" loud: yes } ] }
                                                       ^
  = at `entries[0].loud`
  = type `flag` is due here: yes or no
  = a text stands here
  = rule: "A value is of type text if it is a 1 whose text is a lexeme of the class; of yes/no if a 2; of a list if a 3 whose children are all of its item type; of a record if a 4 with one child for each field, in order, of that field's type."
"#);
}

/// Emoji and East Asian characters take two columns on a screen; the column counts characters.
#[test]
fn a_mark_behind_emoji() {
    check("production p of n = \"😀漢字\" m\ntype t = yesno\n").refused(
        r#"
feed.txt:1:27: no class or nonterminal is named `m`
    production p of n = "😀漢字" m
                                 ^
"#,
    );
}

#[test]
fn a_mark_behind_tabs() {
    check("production p of n =\n\t\"a\"\tm\ntype t = yesno\n").refused(
        r#"
feed.txt:2:6: no class or nonterminal is named `m`
     "a" m
         ^
"#,
    );
}

#[test]
fn lines_that_end_with_a_carriage_return() {
    check(
        PAGE.replace("loud: flag", "loud: flog")
            .replace('\n', "\r\n"),
    )
    .refused(
        r#"
feed.txt:10:41: no type is named `flog`: did you mean `flag`?
    type entry = record { word: word, loud: flog }
                                            ^
"#,
    );
}

#[test]
fn the_end_of_a_file_without_a_line_break() {
    check("class c 1 to").refused(
        r#"
feed.txt:1:13: the greatest number of characters is expected here, not the end of the description
    class c 1 to
                ^
"#,
    );
}

#[test]
fn the_end_of_a_file_with_a_line_break() {
    check("class c 1 to\n").refused(
        r#"
feed.txt:2:1: the greatest number of characters is expected here, not the end of the description

    ^
"#,
    );
}

#[test]
fn control_characters_are_shown_as_escapes() {
    check("class \u{1b}[2Jc 1 to 2 { 'a' }\n").refused(
        r#"
feed.txt:1:7: `\u{1b}` begins nothing here
    class \u{1b}[2Jc 1 to 2 { 'a' }
          ^
feed.txt:1:8: the class's name is expected here, not `[`
    class \u{1b}[2Jc 1 to 2 { 'a' }
                ^
"#,
    );
}

#[test]
fn a_line_of_up_to_120_characters_is_shown_whole() {
    let line = format!("class c 1 to 2 {{ {}x }}", "'a' ".repeat(25));
    assert_eq!(line.chars().count(), 120);
    check(&line).refused(r#"
feed.txt:1:118: a code point, as U+0061 or 'a', is expected here, not `x`
    class c 1 to 2 { 'a' 'a' 'a' 'a' 'a' 'a' 'a' 'a' 'a' 'a' 'a' 'a' 'a' 'a' 'a' 'a' 'a' 'a' 'a' 'a' 'a' 'a' 'a' 'a' 'a' x }
                                                                                                                         ^
"#);
}

/// A file may be one line of some megabytes; the message stays short.
#[test]
fn a_very_long_line_is_shown_around_the_mark() {
    let line = format!("class c 1 to 2 {{ {} x }}", "'a' ".repeat(500_000));
    check(&line).refused(
        r#"
feed.txt:1:2000019: a code point, as U+0061 or 'a', is expected here, not `x`
    .. a' 'a' 'a' 'a' 'a' 'a' 'a' 'a' 'a' 'a' 'a' 'a' 'a' 'a' 'a'  x }
                                                                   ^
"#,
    );
}

#[test]
fn a_very_long_name_is_cut() {
    let name = "n".repeat(1_000_000);
    check(format!("production p of n = {name}\ntype t = yesno\n")).refused(r#"
feed.txt:1:21: no class or nonterminal is named `nnnnnnnnnnnnnnnnnnnnnnnnnnnnnnnnnnnnnnnnnnnnnnnnnnnnnnnnnnnn ..`
    production p of n = nnnnnnnnnnnnnnnnnnnnnnnnnnnnnnnnnnnnnnnn ..
                        ^
"#);
}

#[test]
fn names_that_are_long_are_cut_in_remarks() {
    let name = "n".repeat(100_000);
    let description = PAGE.replace("title", &name);
    let description = description.replace(&format!("place page.{name}"), "place page.entries");
    let description = description.replace("entries", &format!("e{name}"));
    let said = check(description);
    assert!(
        said.err.contains("finds a list (type `ennn"),
        "{}",
        said.err
    );
    assert!(said.err.len() < 1_500, "{}", said.err.len());
}

#[test]
fn a_byte_order_mark_is_named() {
    check(format!("\u{FEFF}{}", changed("", ""))).refused(
        r#"
feed.txt:1:1: the file begins with a byte-order mark (U+FEFF): save it without one
    \u{feff}class word 1 to 8 { 'a'-'z' U+0370-U+03FF }
    ^
"#,
    );
}

#[test]
fn a_byte_order_mark_of_utf_16_is_named() {
    check(b"\xFF\xFEc\0l\0").refused(
        r#"
feed.txt:1:1: the file begins with a byte-order mark of UTF-16: save it as UTF-8, without one
    ��c\u{0}l\u{0}
    ^
"#,
    );
}

#[test]
fn a_description_that_is_no_text() {
    check(b"value\n  \"\xCE\xB1\xC0\"").refused(
        r#"
feed.txt:2:5: `\xC0` is no UTF-8: save the file as UTF-8
      "α�"
        ^
"#,
    );
}
