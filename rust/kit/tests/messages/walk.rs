//! `kit check` and `kit render` of walks that meet a limit: 9 to 12, with the way there and what would do.

use super::desk::{changed, desk_with, Said, PAGE};

/// Checks the page and its value with something lent.
#[track_caller]
fn check(option: &str, number: &str) -> Said {
    desk_with(changed("", "")).kit(&["check", "feed.txt", option, number])
}

#[test]
fn a_scratch_that_is_too_short() {
    check("--scratch", "4799").refused(
        r#"
feed.txt: the scratch has fewer than 4,800 16-bit numbers (refusal 9)
  = 4799 numbers are lent
  = rule: "The scratch has fewer than 4,800 16-bit numbers, 24 for each depth."
"#,
    );
}

#[test]
fn fuel_that_is_spent() {
    check("--fuel", "10").refused(r#"
feed.txt:22:22: a node is reached with all fuel used (refusal 10)
      if entry.loud then build note (place entry.word) else build entry (place entry.word)
                         ^
  = the way there:
      template `main`
      for `entry`, item 2 of 2
      template `line`
  = the walk took 10 steps with fuel 10 and wrote 12 of 65536 bytes; the text so far ends with "<αβ>(ab), "
  = fuel of 12 would do
  = rule: "A node is reached with all fuel (32 bits) used; it isn't counted as a step."
"#);
}

#[test]
fn fuel_that_is_spent_before_the_walk_comes_too_deep() {
    let description = changed(
        "then build note (place entry.word)",
        "then expand line (entry)",
    );
    let desk = desk_with(description);
    desk.kit(&["check", "feed.txt", "--fuel", "50"])
        .refused(r#"
feed.txt:22:22: a node is reached with all fuel used (refusal 10)
      if entry.loud then expand line (entry) else build entry (place entry.word)
                         ^
  = the way there:
      template `main`
      for `entry`, item 2 of 2
      template `line`
      template `line`
      .. 14 more ..
      template `line`
      template `line`
      template `line`
      template `line`
      template `line`
  = the walk took 50 steps with fuel 50 and wrote 12 of 65536 bytes; the text so far ends with "<αβ>(ab), "
  = with more fuel the walk takes 206 steps, and then: a node is reached at depth 201
  = rule: "A node is reached with all fuel (32 bits) used; it isn't counted as a step."
"#);
}

#[test]
fn a_template_that_expands_itself() {
    let description = changed(
        "then build note (place entry.word)",
        "then expand line (entry)",
    );
    desk_with(description)
        .kit(&["check", "feed.txt"])
        .refused(r#"
feed.txt:22:3: a node is reached at depth 201 (refusal 11)
      if entry.loud then expand line (entry) else build entry (place entry.word)
      ^
  = the way there:
      template `main`
      for `entry`, item 2 of 2
      template `line`
      template `line`
      .. 92 more ..
      template `line`
      template `line`
      template `line`
      template `line`
      template `line`
  = template `line` expands itself; the body of each expand is one level deeper, and 200 levels are the most
  = the walk took 206 steps with fuel 1000000 and wrote 12 of 65536 bytes; the text so far ends with "<αβ>(ab), "
  = rule: "A node is reached at depth 201; it is counted as a step."
"#);
}

#[test]
fn templates_that_expand_one_another() {
    let other =
        "expand other (entry)\ntemplate other (entry: entry) of item = expand line (entry)\n# ";
    let description = changed("if entry.loud", other);
    desk_with(description)
        .kit(&["check", "feed.txt"])
        .refused(r#"
feed.txt:22:3: a node is reached at depth 201 (refusal 11)
      expand other (entry)
      ^
  = the way there:
      template `main`
      for `entry`, item 1 of 2
      template `line`
      template `other`
      .. 190 more ..
      template `line`
      template `other`
      template `line`
      template `other`
      template `line`
  = templates `line` → `other` → `line` .. expand one another; the body of each expand is one level deeper, and 200 levels are the most
  = the walk took 202 steps with fuel 1000000 and wrote 6 of 65536 bytes; the text so far ends with "<αβ>"
  = rule: "A node is reached at depth 201; it is counted as a step."
"#);
}

#[test]
fn a_lexeme_past_the_end_of_the_output() {
    check("--output", "4").refused(
        r#"
feed.txt:16:5: a keyword, lexeme or separator passes the end of the output (refusal 12)
        place page.title
        ^
  = the text "αβ" has 4 bytes, and 3 are left
  = the way there:
      template `main`
  = the walk took 2 steps with fuel 1000000 and wrote 1 of 4 bytes; the text so far ends with "<"
  = an output of 16 bytes would do
  = rule: "A keyword or lexeme passes the end of the output."
"#,
    );
}

#[test]
fn a_keyword_past_the_end_of_the_output() {
    check("--output", "0").refused(
        r#"
feed.txt:15:3: a keyword, lexeme or separator passes the end of the output (refusal 12)
      build page (
      ^
  = the keyword "<" has 1 byte, and 0 are left
  = the way there:
      template `main`
  = the walk took 1 step with fuel 1000000 and wrote 0 of 0 bytes; the text so far ends with ""
  = an output of 16 bytes would do
  = rule: "A keyword or lexeme passes the end of the output."
"#,
    );
}

#[test]
fn a_separator_past_the_end_of_the_output() {
    check("--output", "11").refused(r#"
feed.txt:17:5: a keyword, lexeme or separator passes the end of the output (refusal 12)
        sequence (
        ^
  = the separator ", " has 2 bytes, and 1 is left
  = the way there:
      template `main`
      for `entry`, item 2 of 2
  = the walk took 8 steps with fuel 1000000 and wrote 10 of 11 bytes; the text so far ends with "<αβ>(ab)"
  = an output of 16 bytes would do
  = rule: "The separator is written before every item but the first, whether from a for, the sequence itself or several fors in a row. It comes before the item's fuel and depth are tried, and where it passes the end, none of it is written and that is 12 with the sequence's place."
"#);
}

/// The template is at fault, and so the place is in the description; the way tells which item it was.
#[test]
fn data_for_which_the_output_is_too_short() {
    let data =
        r#"{"title": "a", "entries": [{"word": "b", "loud": false}, {"word": "c", "loud": true}]}"#;
    let desk = desk_with(PAGE).with("data.json", data);
    let words = ["render", "feed.txt", "data.json", "--output", "9"];
    desk.kit(&words).refused(r#"
feed.txt:22:34: a keyword, lexeme or separator passes the end of the output (refusal 12)
      if entry.loud then build note (place entry.word) else build entry (place entry.word)
                                     ^
  = the text "c" has 1 byte, and 0 are left
  = the way there:
      template `main`
      for `entry`, item 2 of 2
      template `line`
  = the walk took 12 steps with fuel 1000000 and wrote 9 of 9 bytes; the text so far ends with "<a>(b), !"
  = an output of 11 bytes would do
  = rule: "A keyword or lexeme passes the end of the output."
"#);
}

/// How full the streams are is told also if the walk meets a limit.
#[test]
fn the_size_of_a_walk_that_meets_a_limit() {
    let desk = desk_with(changed("", ""));
    let err = r#"
feed.txt:15:3: a node is reached with all fuel used (refusal 10)
      build page (
      ^
  = the way there:
      template `main`
  = the walk took 0 steps with fuel 0 and wrote 0 of 65536 bytes; the text so far ends with ""
  = fuel of 12 would do
  = rule: "A node is reached with all fuel (32 bits) used; it isn't counted as a step."
"#;
    let said = desk.kit(&["size", "feed.txt", "--fuel", "0"]);
    let first = "grammar   24 of 8064 records, 1 of 128 blocks, 1 % full\n";
    assert!(said.out.starts_with(first), "{}", said.out);
    said.is(1, &said.out, err);
}

#[test]
fn what_is_printed_if_all_is_well() {
    let desk = desk_with(changed("", ""));
    desk.kit(&["check", "feed.txt"])
        .done("feed.txt: accepted, and gives a text of 16 bytes in 12 steps\n");
    desk.kit(&["render", "feed.txt"]).done("<αβ>(ab), !cd.");
    let size = desk.kit(&["size", "feed.txt"]);
    assert_eq!((size.status, size.err.as_str()), (Some(0), ""));
    let text = "text      16 of 65536 bytes, 12 of 1000000 steps\n";
    assert!(size.out.contains(text), "{}", size.out);
}

/// Without data only the description is checked.
#[test]
fn a_description_without_a_value() {
    let desk = desk_with(PAGE);
    desk.kit(&["check", "feed.txt"])
        .done("feed.txt: accepted\n");
    desk.kit(&["render", "feed.txt"]).failed(
        r#"
kit render: feed.txt has no value, and DATA.json is missing
usage: kit render FILE [DATA.json] [--to OUT] [--fuel N] [--output N] [--scratch N]
`kit render --help` says more
"#,
    );
}
