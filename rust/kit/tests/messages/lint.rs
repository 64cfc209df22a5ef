//! `kit lint`: its form and its exit status.

use super::desk::{changed, desk_with, PAGE};

#[test]
fn nothing_to_say() {
    desk_with(PAGE)
        .kit(&["lint", "feed.txt"])
        .done("feed.txt: nothing to say\n");
}

#[test]
fn warnings_are_a_report() {
    let page = changed("else build entry (place", "else build note (place")
        .replacen("\"<\" word \">\"", "\"<b title='\" word \"'>\"", 1)
        .replacen("'a'-'z'", "' '-'~'", 1);
    desk_with(page).kit(&["lint", "feed.txt"]).reported(r#"
feed.txt:4:40: class `word` admits `&`, `<` and `'` here, between `<b title='` and `'`, where `&` and `<` would be read as markup and `'` would end the value: ask for its escaped form `safe`
    production page of page = "<b title='" word "'>" item*(", ") "."
                                           ^
feed.txt:5:12: production `entry` is not used: no template builds it
    production entry of item = "(" word ")"
               ^
"#);
}

/// What the machine refuses is told first, as by `kit check`.
#[test]
fn a_description_that_is_refused() {
    let desk = desk_with(changed("place page.title", "place page.entries"));
    let check = desk.kit(&["check", "feed.txt"]);
    desk.kit(&["lint", "feed.txt"]).refused(&check.err);
}

/// Keywords are shown with escapes, and names and keywords are cut.
#[test]
fn what_can_not_be_seen_and_what_is_long() {
    let page = PAGE
        .replacen("\"<\" word \">\"", "\"<\\x1B>\" word \"</\\x1B>\"", 1)
        .replacen("'a'-'z'", "' '-'~'", 1)
        .replace("entry of item", &format!("{} of item", "n".repeat(100_000)))
        .replace("build entry", "build note");
    let said = desk_with(page).kit(&["lint", "feed.txt"]);
    assert!(
        said.out
            .contains("between `<\\u{1b}>` and `</\\u{1b}>`, where"),
        "{}",
        said.out
    );
    assert!(said.out.contains("nnn ..` is not used: "), "{}", said.out);
    assert!(said.out.len() < 1_000, "{}", said.out.len());
}
