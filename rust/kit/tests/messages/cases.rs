//! Cases of variants in a value: in a description, and in JSON.

use super::desk::{desk_with, Said};
use super::variants::{changed, MEDIA};

#[track_caller]
fn check(from: &str, to: &str) -> Said {
    desk_with(changed(from, to)).kit(&["check", "feed.txt"])
}

#[test]
fn a_misspelt_case() {
    check("case audio {", "case aduio {").refused(
        r#"
feed.txt:25:14: the type `medium` has no case `aduio`: did you mean `audio`?
    value [ case aduio { "ab" } case video { title: "cd" width: "12" height: "7" } ]
                 ^
"#,
    );
}

#[test]
fn a_case_of_no_variant() {
    check(r#"title: "cd""#, r#"title: case audio "cd""#).refused(
        r#"
feed.txt:25:54: the type `word` is no variant, and has no case `audio`
    value [ case audio { "ab" } case video { title: case audio "cd" width: "12" height: "7" } ]
                                                         ^
"#,
    );
}

#[test]
fn a_case_that_is_not_there() {
    check("case audio {", "case 2 {").refused(r#"
feed.txt:25:9: the value isn't of its declared type (refusal 8)
    value [ case 2 { "ab" } case video { title: "cd" width: "12" height: "7" } ]
            ^
  = at `[0]`
  = type `medium` is due here: a variant of 2 cases: 0 `audio`, 1 `video`
  = case 2 stands here, and there is no such case
  = rule: "Value record 5 is a case: a its number from 0, c size, one child; it is of the variant if there is such a case and the child is of that case's type."
"#);
}

#[test]
fn a_record_where_a_case_is_due() {
    check(r#"case audio { "ab" }"#, r#"{ "ab" }"#).refused(r#"
feed.txt:25:9: the value isn't of its declared type (refusal 8)
    value [ { "ab" } case video { title: "cd" width: "12" height: "7" } ]
            ^
  = at `[0]`
  = type `medium` is due here: a variant of 2 cases: 0 `audio`, 1 `video`
  = a record of 1 field stands here
  = rule: "Value record 5 is a case: a its number from 0, c size, one child; it is of the variant if there is such a case and the child is of that case's type."
"#);
}

#[test]
fn a_content_of_another_kind() {
    check(r#"case audio { "ab" }"#, r#"case audio "ab""#).refused(r#"
feed.txt:25:20: the value isn't of its declared type (refusal 8)
    value [ case audio "ab" case video { title: "cd" width: "12" height: "7" } ]
                       ^
  = at `[0].audio`
  = type `audio` is due here: a record of 1 field: `title`
  = a text stands here
  = rule: "A value is of type text if it is a 1 whose text is a lexeme of the class; of yes/no if a 2; of a list if a 3 whose children are all of its item type; of a record if a 4 with one child for each field, in order, of that field's type."
"#);
}

#[test]
fn a_text_below_a_case() {
    check(r#"height: "7""#, r#"height: "seven""#).refused(r#"
feed.txt:25:74: the value isn't of its declared type (refusal 8)
    value [ case audio { "ab" } case video { title: "cd" width: "12" height: "seven" } ]
                                                                             ^
  = at `[1].video.height`
  = a text of class `number` is due here: 1 to 5 characters of U+0030-U+0039
  = this text has 5 characters, and number 1, U+0073 ('s'), is in no range
  = rule: "A lexeme of a class is well-formed UTF-8 (RFC 3629) with a character count from least to most, each character in some range. Counts are of characters, never bytes."
"#);
}

#[test]
fn a_case_where_a_text_is_due() {
    check(r#"title: "cd""#, r#"title: case 0 "cd""#).refused(r#"
feed.txt:25:49: the value isn't of its declared type (refusal 8)
    value [ case audio { "ab" } case video { title: case 0 "cd" width: "12" height: "7" } ]
                                                    ^
  = at `[1].video.title`
  = a text of class `word` is due here: 1 to 8 characters of U+0061-U+007A
  = case 0 stands here
  = rule: "A value is of type text if it is a 1 whose text is a lexeme of the class; of yes/no if a 2; of a list if a 3 whose children are all of its item type; of a record if a 4 with one child for each field, in order, of that field's type."
"#);
}

#[test]
fn cases_in_json() {
    let desk = desk_with(MEDIA).with("data.json", r#"[ {"video": {"width": "640", "title": "ab", "height": "360"}}, {"audio": {"title": "cd"}} ]
"#);
    desk.kit(&["render", "feed.txt", "data.json"]).done(
        r#"
v:ab 640x360, a:cd."#,
    );
}

#[test]
fn mistakes_of_cases_are_told_at_once() {
    let desk = desk_with(MEDIA).with(
        "data.json",
        r#"[
  {"vidoe": {"title": "ab"}},
  {"text": {"title": "ab"}},
  {},
  "audio",
  {"title": "ab"},
  {"audio": {"title": "AB"}, "video": {"title": 1}},
  {"video": {"title": "cd", "width": "1", "heigth": "2"}},
  {"audio": null}
]
"#,
    );
    desk.kit(&["check", "feed.txt", "data.json"]).refused(r#"
data.json:2:4: `[0].vidoe`: this key names no case of type `medium`: did you mean `video`?
      {"vidoe": {"title": "ab"}},
       ^
data.json:3:4: `[1].text`: this key names no case of type `medium`: it has `audio`, `video`
      {"text": {"title": "ab"}},
       ^
data.json:4:3: `[2]`: this object has no key: type `medium` asks for one of the keys `audio, video`
      {},
      ^
data.json:5:3: `[3]`: an object with one of the keys `audio, video` is due here, not a text
      "audio",
      ^
data.json:6:4: `[4].title`: this key names no case of type `medium`: it has `audio`, `video`
      {"title": "ab"},
       ^
data.json:7:23: `[5].audio.title`: the value isn't of its declared type (refusal 8)
      {"audio": {"title": "AB"}, "video": {"title": 1}},
                          ^
  = a text of class `word` is due here: 1 to 8 characters of U+0061-U+007A
  = this text has 2 characters, and number 1, U+0041 ('A'), is in no range
data.json:7:30: `[5].video`: this key is surplus: a value of type `medium` has one case, and `audio` stands before it
      {"audio": {"title": "AB"}, "video": {"title": 1}},
                                 ^
data.json:8:13: `[6].video.height`: this key is missing: type `video` has such a field
      {"video": {"title": "cd", "width": "1", "heigth": "2"}},
                ^
data.json:8:43: `[6].video.heigth`: this key is surplus: type `video` has no such field: did you mean `height`?
      {"video": {"title": "cd", "width": "1", "heigth": "2"}},
                                              ^
data.json:9:13: `[7].audio`: an object with the keys `title` is due here, not null
      {"audio": null}
                ^
"#);
}

#[test]
fn data_that_is_no_list() {
    let desk = desk_with(MEDIA).with(
        "data.json",
        r#"{"audio": {"title": "ab"}}
"#,
    );
    desk.kit(&["value", "feed.txt", "data.json", "out.blk"])
        .refused(
            r#"
data.json:1:1: the whole data: an array (a list of type `medium`) is due here, not an object
    {"audio": {"title": "ab"}}
    ^
"#,
        );
}

#[test]
fn a_variant_of_one_case() {
    let film = MEDIA.lines().find(|line| line.contains("video as film"));
    let one = MEDIA
        .replacen(", video: video }", " }", 1)
        .replacen(film.expect("an arm"), "", 1);
    let desk = desk_with(one).with("data.json", r#"[ {}, 1, {"x": 1} ]"#);
    desk.kit(&["check", "feed.txt", "data.json"]).refused(
        r#"
data.json:1:3: `[0]`: this object has no key: type `medium` asks for the key `audio`
    [ {}, 1, {"x": 1} ]
      ^
data.json:1:7: `[1]`: an object with the key `audio` is due here, not a number
    [ {}, 1, {"x": 1} ]
          ^
data.json:1:11: `[2].x`: this key names no case of type `medium`: it has `audio`
    [ {}, 1, {"x": 1} ]
              ^
"#,
    );
}

#[test]
fn a_list_below_a_case_has_its_size() {
    let page = MEDIA
        .replacen(
            "type audio = record {",
            "type words = list word\ntype audio = record { words: words,",
            1,
        )
        .replacen("(media: media)", "(medium: medium)", 1)
        .replacen("for medium in media do", "", 1);
    let desk = desk_with(page).with(
        "data.json",
        r#"{"audio": {"title": "ab", "words": ["a", "b", "c"]}}"#,
    );
    desk.kit(&["size", "feed.txt", "data.json"]).done(
        r#"
grammar   23 of 8064 records, 1 of 128 blocks, 1 % full
templates 30 of 8064 records, 1 of 128 blocks, 1 % full
value     11 of 8064 records, 1 of 128 blocks, 1 % full
text      5 of 65536 bytes, 5 of 1000000 steps
`audio.words`: 3 items in 6 records; about 4026 more fit, then the value stream is full
"#,
    );
}
