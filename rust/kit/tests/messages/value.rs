//! Data from JSON: what `kit value`, `kit check` and `kit render` say of it.

use super::desk::{changed, desk_with, Desk, Said, PAGE};

/// The page with data in `data.json`.
#[track_caller]
fn with(data: impl AsRef<[u8]>) -> Desk {
    desk_with(PAGE).with("data.json", data)
}

/// What `kit value` says of data, for which it writes nothing.
fn value(desk: Desk) -> Said {
    let said = desk.kit(&["value", "feed.txt", "data.json", "value.blk"]);
    assert_eq!(desk.names("."), ["data.json", "feed.txt"]);
    said
}

const DATA: &str = r#"{
  "entries": [
    { "loud": false, "word": "ab" },
    { "word": "cd", "loud": true }
  ],
  "title": "αβ"
}
"#;

/// The keys may have any order; the stream is the one that the description's own value has.
#[test]
fn data_of_the_declared_type() {
    let desk = with(DATA);
    desk.kit(&["value", "feed.txt", "data.json", "value.blk"])
        .done("value.blk: 512 bytes\n");
    let desk = desk.with("own.txt", changed("", ""));
    assert_eq!(desk.kit(&["assemble", "own.txt", "own"]).status, Some(0));
    assert_eq!(desk.read("value.blk"), desk.read("own/value.blk"));
    desk.kit(&["render", "feed.txt", "data.json"])
        .done("<αβ>(ab), !cd.");
    desk.kit(&["check", "feed.txt", "data.json"])
        .done("feed.txt: accepted, and gives a text of 16 bytes in 12 steps\n");
}

/// Data goes before the description's own value.
#[test]
fn data_for_a_description_with_a_value() {
    let desk = desk_with(changed("", "")).with("data.json", DATA.replace("αβ", "γδ"));
    desk.kit(&["render", "feed.txt", "data.json"])
        .done("<γδ>(ab), !cd.");
}

#[test]
fn text_that_is_no_lexeme() {
    value(with(DATA.replace("\"cd\"", "\"cD\""))).refused(
        r#"
data.json:4:15: `entries[1].word`: the value isn't of its declared type (refusal 8)
        { "word": "cD", "loud": true }
                  ^
  = a text of class `word` is due here: 1 to 8 characters of U+0061-U+007A U+0370-U+03FF
  = this text has 2 characters, and number 2, U+0044 ('D'), is in no range
"#,
    );
}

#[test]
fn text_that_xml_does_not_admit() {
    value(with(DATA.replace("αβ", "α\\u000Bβ"))).refused(r#"
data.json:6:12: `title`: the value isn't of its declared type (refusal 8)
      "title": "α\u000Bβ"
               ^
  = a text of class `word` is due here: 1 to 8 characters of U+0061-U+007A U+0370-U+03FF
  = this text has 3 characters, and number 2, U+000B (vertical tab), is one that XML 1.0 admits nowhere, whatever the ranges are
"#);
}

#[test]
fn several_mistakes_at_once() {
    let data = r#"{
  "title": 7,
  "entries": [
    { "word": "", "loud": "yes" },
    { "words": "ab", "loud": true },
    [ "ab", true ],
    null
  ],
  "note": "x"
}
"#;
    value(with(data)).refused(r#"
data.json:2:12: `title`: a text of class `word` is due here, not a number: write it in quotes
      "title": 7,
               ^
data.json:4:15: `entries[0].word`: the value isn't of its declared type (refusal 8)
        { "word": "", "loud": "yes" },
                  ^
  = a text of class `word` is due here: 1 to 8 characters of U+0061-U+007A U+0370-U+03FF
  = this text has 0 characters, 1 too few
data.json:4:27: `entries[0].loud`: true or false is due here, not a text
        { "word": "", "loud": "yes" },
                              ^
data.json:5:5: `entries[1].word`: this key is missing: type `entry` has such a field
        { "words": "ab", "loud": true },
        ^
data.json:5:7: `entries[1].words`: this key is surplus: type `entry` has no such field: did you mean `word`?
        { "words": "ab", "loud": true },
          ^
data.json:6:5: `entries[2]`: an object with the keys `word, loud` is due here, not an array
        [ "ab", true ],
        ^
data.json:7:5: `entries[3]`: an object with the keys `word, loud` is due here, not null
        null
        ^
data.json:9:3: `note`: this key is surplus: type `page` has no such field
      "note": "x"
      ^
"#);
}

#[test]
fn an_object_where_an_array_is_due() {
    value(with("{\"title\": \"ab\", \"entries\": {}}")).refused(
        r#"
data.json:1:28: `entries`: an array (a list of type `entry`) is due here, not an object
    {"title": "ab", "entries": {}}
                               ^
"#,
    );
}

#[test]
fn data_of_another_kind() {
    value(with("[]\n")).refused(
        r#"
data.json:1:1: the whole data: an object with the keys `title, entries` is due here, not an array
    []
    ^
"#,
    );
}

#[test]
fn data_of_one_text() {
    let description = "class c 1 to 4 { 'a'-'z' }\nproduction p of n = c\ntype t = text c\ntemplate main (t: t) of n = build p (place t)\n";
    let desk = desk_with(description).with("data.json", "\"A\"");
    desk.kit(&["check", "feed.txt", "data.json"]).refused(
        r#"
data.json:1:1: the whole data: the value isn't of its declared type (refusal 8)
    "A"
    ^
  = a text of class `c` is due here: 1 to 4 characters of U+0061-U+007A
  = this text has 1 character, and number 1, U+0041 ('A'), is in no range
"#,
    );
    let desk = desk.with("data.json", "\"ab\"");
    desk.kit(&["render", "feed.txt", "data.json"]).done("ab");
}

/// The first template is at fault, not the data.
#[test]
fn a_description_that_declares_no_type() {
    let description = "production p of n =\ntype t = yesno\ntemplate main () of n = build p\n";
    let desk = desk_with(description).with("data.json", DATA);
    desk.kit(&["value", "feed.txt", "data.json", "value.blk"])
        .refused(r#"
feed.txt:3:10: template 0 is missing or has not one parameter (refusal 7)
    template main () of n = build p
             ^
  = template `main` has 0 parameters: the first template is the root, and its one parameter is the value
  = rule: "A typing rule fails, or a path names a variable or field that isn't there (place of the node that holds the path or itself doesn't suit its position, never the one above it; 0, and tried first, if template 0 is missing or has not one parameter)."
"#);
}

/// A mistake in the description comes before all in the data.
#[test]
fn a_mistake_in_the_description() {
    let desk = desk_with(PAGE.replacen("list entry", "list entri", 1)).with("data.json", "[");
    desk.kit(&["value", "feed.txt", "data.json", "value.blk"])
        .refused(
            r#"
feed.txt:11:21: no type is named `entri`: did you mean `entry`?
    type entries = list entri
                        ^
"#,
        );
}

#[test]
fn an_empty_data_file() {
    value(with("")).refused(
        r#"
data.json:1:1: a value is expected here, not the end of the file

    ^
"#,
    );
}

#[test]
fn an_object_that_is_not_closed() {
    value(with("{\n  \"title\": \"ab\"\n")).refused(r#"
data.json:3:1: `}` or `,` is expected here, not the end of the file: the `{` at line 1, column 1 is not closed

    ^
"#);
}

#[test]
fn a_comma_too_many() {
    value(with("{\n  \"title\": \"ab\",\n}\n")).refused(
        r#"
data.json:2:16: a trailing comma: a key is expected after `,`, not `}`
      "title": "ab",
                   ^
"#,
    );
}

#[test]
fn a_key_that_stands_twice() {
    value(with("{\n  \"title\": \"ab\",\n  \"title\": \"cd\"\n}\n")).refused(
        r#"
data.json:3:3: the key `title` stands in this object already, at line 2
      "title": "cd"
      ^
"#,
    );
}

#[test]
fn single_quotes() {
    value(with("{ 'title': \"ab\" }\n")).refused(
        r#"
data.json:1:3: a key or `}` is expected here, not `'title'`: keys stand in double quotes in JSON
    { 'title': "ab" }
      ^
"#,
    );
}

#[test]
fn a_comment() {
    value(with("{ // the page\n  \"title\": \"ab\" }\n")).refused(
        r#"
data.json:1:3: a key or `}` is expected here, not `// the page`: JSON has no comments
    { // the page
      ^
"#,
    );
}

#[test]
fn lines_that_end_with_a_carriage_return_and_tabs() {
    value(with("{\r\n\t\"title\": \"αβ\", \"entries\": no\r\n}\r\n")).refused(
        r#"
data.json:2:28: a value is expected here, not `no`: it is written `false` in JSON
     "title": "αβ", "entries": no
                               ^
"#,
    );
}

#[test]
fn a_mark_behind_emoji() {
    value(with("{\"title\": \"😀漢\", \"entries\": 7}")).refused(
        r#"
data.json:1:11: `title`: the value isn't of its declared type (refusal 8)
    {"title": "😀漢", "entries": 7}
              ^
  = a text of class `word` is due here: 1 to 8 characters of U+0061-U+007A U+0370-U+03FF
  = this text has 2 characters, and number 1, U+1F600 ('😀'), is in no range
data.json:1:28: `entries`: an array (a list of type `entry`) is due here, not a number
    {"title": "😀漢", "entries": 7}
                                 ^
"#,
    );
}

#[test]
fn a_byte_order_mark() {
    value(with(format!("\u{FEFF}{DATA}"))).refused(
        r#"
data.json:1:1: the file begins with a byte-order mark (U+FEFF): save it without one
    \u{feff}{
    ^
"#,
    );
}

#[test]
fn a_byte_order_mark_of_utf_16() {
    value(with(b"\xFF\xFE{\0}\0")).refused(
        r#"
data.json:1:1: the file begins with a byte-order mark of UTF-16: save it as UTF-8, without one
    ��{\u{0}}\u{0}
    ^
"#,
    );
}

#[test]
fn bytes_that_are_no_text() {
    value(with(b"{\"title\": \"a\xC0\"}")).refused(
        r#"
data.json:1:13: `\xC0` is no UTF-8: save the file as UTF-8
    {"title": "a�"}
                ^
"#,
    );
}

#[test]
fn a_key_with_control_characters() {
    value(with(
        "{\"title\": \"ab\", \"entries\": [], \"\\u001B[2J\": 1}",
    ))
    .refused(
        r#"
data.json:1:32: `"\u{1b}[2J"`: this key is surplus: type `page` has no such field
    {"title": "ab", "entries": [], "\u001B[2J": 1}
                                   ^
"#,
    );
}

#[test]
fn a_very_long_text_is_not_repeated() {
    let long = "A".repeat(4_000_000);
    let said = value(with(format!(
        "{{\"title\": \"ab\", \"entries\": [], \"{long}\": \"{long}"
    )));
    assert_eq!(said.status, Some(2));
    let said = value(with(format!(
        "{{\"title\": \"ab\", \"entries\": [], \"{long}\": 1}}"
    )));
    said.refused(r#"
data.json:1:32: `AAAAAAAAAAAAAAAAAAAAAAAAAAAAAAAAAAAAAAAAAAAAAAAAAAAAAAAAAAAAAAAAAAAAAAAAAAAAAAAAAAAAAAAAAAAAAAAAAAAAAAAAAAAAAAAAAAAAAAAAAAAAAAAAAAAAAAAAAAAAAAAAAAAAAAAAAAAAAAAAAAAAAAAAAAAAAAAAAAAAAAAAAAAAAAAAAAAAAAAA ..`: this key is surplus: type `page` has no such field
    {"title": "ab", "entries": [], "AAAAAAAAAAAAAAAAAAAAAAAAAAAAAAAAAAAAAAA ..
                                   ^
"#);
}

#[test]
fn data_that_is_too_large() {
    value(with(" ".repeat(4 << 20) + "{}"))
        .failed("kit: data.json: this file has over 4194304 bytes, and no more are read\n");
}

/// Keys that are no names of the language.
#[test]
fn keys_of_any_kind() {
    let page = PAGE
        .replacen("{ title: word", "{ \"pub-date\": word, type: word", 1)
        .replacen("page.title", "page.\"pub-date\"", 1);
    let value = ["value", "feed.txt", "data.json", "out.blk"];
    let right = r#"{"pub-date": "ab", "type": "cd", "entries": []}"#;
    let desk = desk_with(page).with("data.json", right);
    desk.kit(&value).done("out.blk: 512 bytes\n");
    let wrong = right.replace("\"ab\"", "1").replace("[]", "[], \"\": 2");
    desk.with("data.json", wrong).kit(&value).refused(
        r#"
data.json:1:14: `"pub-date"`: a text of class `word` is due here, not a number: write it in quotes
    {"pub-date": 1, "type": "cd", "entries": [], "": 2}
                 ^
data.json:1:46: `""`: this key is surplus: type `page` has no such field
    {"pub-date": 1, "type": "cd", "entries": [], "": 2}
                                                 ^
"#,
    );
}
