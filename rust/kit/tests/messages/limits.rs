//! `kit check` of what is too deep or too much: 4.

use super::desk::{changed, desk_with, Said};

#[track_caller]
fn check(description: &str) -> Said {
    desk_with(description).kit(&["check", "feed.txt"])
}

#[test]
fn a_template_with_nine_parameters() {
    let more: String = (1..=8).map(|number| format!(", p{number}: flag")).collect();
    let parameters = format!("(entry: entry{more})");
    check(&changed("(entry: entry)", &parameters)).refused(r#"
feed.txt:21:10: a template node is over 200 deep, or a template has over 8 parameters, or over 16 loops stand around a node (refusal 4)
    template line (entry: entry, p1: flag, p2: flag, p3: flag, p4: flag, p5: flag, p6: flag, p7: flag, p8: flag) of item =
             ^
  = template `line` has 9 parameters, and 8 are the most
  = rule: "A template node or value is over 200 deep (body and whole value count 1), or a template has over 8 parameters, or over 16 loops stand around a node."
"#);
}

/// The node stands at the end of a long line, which is shown around it.
#[test]
fn a_node_that_is_too_deep() {
    let body = "build note (place entry.word) else build entry (place entry.word)";
    let (ifs, elses) = (
        "if entry.loud then ".repeat(199),
        " else build entry (place entry.word)".repeat(199),
    );
    let deep =
        format!("{ifs}build note (place entry.word){elses} else build entry (place entry.word)");
    check(&changed(body, &deep)).refused(r#"
feed.txt:22:3803: a template node is over 200 deep, or a template has over 8 parameters, or over 16 loops stand around a node (refusal 4)
    .. en if entry.loud then if entry.loud then if entry.loud then build note (place entry.word) else build ..
                                                                   ^
  = this node is at depth 201, and 200 is the most: a body is at depth 1, and what stands in it one deeper each time
  = rule: "A template node or value is over 200 deep (body and whole value count 1), or a template has over 8 parameters, or over 16 loops stand around a node."
"#);
}

#[test]
fn a_node_in_seventeen_fors() {
    let description = r#"production p of n = n*
type l = list l
template main (l: l) of n =
  build p (sequence (for i in l do BODY))
"#;
    let around = "build p (sequence (\n  for i in i do ".repeat(16);
    let body = format!("{around}build p (sequence ()){}", "))".repeat(16));
    check(&description.replace("BODY", &body)).refused(r#"
feed.txt:20:17: a template node is over 200 deep, or a template has over 8 parameters, or over 16 loops stand around a node (refusal 4)
      for i in i do build p (sequence ())))))))))))))))))))))))))))))))))))
                    ^
  = 17 fors stand around this node, and 16 are the most
  = rule: "A template node or value is over 200 deep (body and whole value count 1), or a template has over 8 parameters, or over 16 loops stand around a node."
"#);
}

/// What is too deep in the data is told in the data.
#[test]
fn data_that_is_too_deep() {
    let description = "production p of n =\ntype l = list l\ntemplate main (l: l) of n = build p\n";
    let data = format!("{}\n{}", "[".repeat(201), "]".repeat(201));
    let desk = desk_with(description).with("data.json", data);
    desk.kit(&["check", "feed.txt", "data.json"])
        .refused(r#"
data.json:1:201: a value is over 200 deep (refusal 4)
    .. [[[[[[[[[[[[[[[[[[[[[[[[[[[[[[[[[[[[[[[[[[[[[[[[[[[[[[[[[[[[[
                                                                   ^
  = this value is at depth 201, and 200 is the most: a whole value is at depth 1, and what stands in it one deeper each time
  = rule: "A template node or value is over 200 deep (body and whole value count 1), or a template has over 8 parameters, or over 16 loops stand around a node."
"#);
    desk.kit(&["value", "feed.txt", "data.json", "value.blk"])
        .refused(r#"
data.json:1:201: a value is over 200 deep (refusal 4)
    .. [[[[[[[[[[[[[[[[[[[[[[[[[[[[[[[[[[[[[[[[[[[[[[[[[[[[[[[[[[[[[
                                                                   ^
  = this value is at depth 201, and 200 is the most: a whole value is at depth 1, and what stands in it one deeper each time
  = rule: "A template node or value is over 200 deep (body and whole value count 1), or a template has over 8 parameters, or over 16 loops stand around a node."
"#);
    assert_eq!(desk.names("."), ["data.json", "feed.txt"]);
}

/// A text of more bytes than a record counts, and one that no stream holds.
#[test]
fn more_than_a_stream_holds() {
    let word = "α".repeat(40_000);
    let json =
        format!("{{\"title\": \"ab\", \"entries\": [{{\"word\": \"{word}\", \"loud\": true}}]}}");
    let desk = desk_with(changed("1 to 8", "1 to 65535")).with("data.json", json);
    desk.kit(&["check", "feed.txt", "data.json"]).refused(
        r#"
data.json:1:38: `entries[0].word`: this text has 80000 bytes, and a stream has room for 64504
    {"title": "ab", "entries": [{"word": "ααααααααααααααααααααααααααααααααααααααα ..
                                         ^
"#,
    );
    let entry = "{\"word\": \"ab\", \"loud\": true},\n";
    let json = format!(
        "{{\"title\": \"ab\", \"entries\": [\n{}{}]}}",
        entry.repeat(3_000),
        entry.trim_end_matches(",\n")
    );
    let desk = desk.with("data.json", json);
    desk.kit(&["value", "feed.txt", "data.json", "value.blk"])
        .refused(r#"
data.json:2017:1: the value takes 12008 records, and a stream holds 8064: from here on they don't fit
    {"word": "ab", "loud": true},
    ^
"#);
}
