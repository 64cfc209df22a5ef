//! The mistakes of a description itself, all at once.

use super::desk::{changed, desk, desk_with, Said, PAGE};

#[track_caller]
fn check(description: &str) -> Said {
    desk_with(description).kit(&["check", "feed.txt"])
}

/// One for each part that has any.
#[test]
fn several_mistakes_in_form() {
    let description =
        "class c 1 to 2 { 'a' @@ }\nproduction p of n = (\ntype t = set c\nvalue \"a\n";
    check(description).refused(
        r#"
feed.txt:1:22: `@@` begins nothing here
    class c 1 to 2 { 'a' @@ }
                         ^
feed.txt:2:21: a keyword, a class or a nonterminal is expected here, not `(`
    production p of n = (
                        ^
feed.txt:3:10: `text`, `yesno`, `list`, `record` or `variant` is expected here, not `set`
    type t = set c
             ^
feed.txt:4:7: this text has no closing quote on its line
    value "a
          ^
"#,
    );
}

#[test]
fn several_mistakes_in_names() {
    let page = PAGE
        .replacen("\"<\" word", "\"<\" words", 1)
        .replacen("list entry", "list entris", 1)
        .replacen("place page.title", "place page.titel", 1)
        .replacen("build note", "build nota", 1);
    check(&format!("{page}type flag = yesno\n")).refused(
        r#"
feed.txt:4:31: no class or nonterminal is named `words`: did you mean `word`?
    production page of page = "<" words ">" item*(", ") "."
                                  ^
feed.txt:11:21: no type is named `entris`: did you mean `entries`?
    type entries = list entris
                        ^
feed.txt:16:16: the type `page` has no field `titel`: did you mean `title`?
        place page.titel
                   ^
feed.txt:22:28: no production is named `nota`: did you mean `note`?
      if entry.loud then build nota (place entry.word) else build entry (place entry.word)
                               ^
feed.txt:23:6: `flag` is a type already, at line 9
    type flag = yesno
         ^
"#,
    );
}

#[test]
fn very_many_mistakes() {
    let productions: String = (0..30)
        .map(|n| format!("production p{n} of n = m{n}\n"))
        .collect();
    let said = check(&format!("{productions}type t = yesno\n"));
    assert_eq!(said.status, Some(1));
    assert_eq!(
        said.err.matches("no class or nonterminal is named").count(),
        20
    );
    assert!(
        said.err.ends_with("feed.txt: and 10 more\n"),
        "{}",
        said.err
    );
}

#[test]
fn mistakes_in_words() {
    let description = r#"class c 0 to 1 { U+1234567 'ab }
production p of n = "\q" "\x1" "\u12"
value yes
value no
"#;
    check(description).refused(
        r#"
feed.txt:1:18: a code point is U+ and one to six hexadecimal digits
    class c 0 to 1 { U+1234567 'ab }
                     ^
feed.txt:1:28: one character stands between single quotes
    class c 0 to 1 { U+1234567 'ab }
                               ^
feed.txt:2:22: a backslash stands before " \ n r t, xHH, u{HEX} or the line's end
    production p of n = "\q" "\x1" "\u12"
                         ^
feed.txt:2:27: \x takes two hexadecimal digits
    production p of n = "\q" "\x1" "\u12"
                              ^
feed.txt:2:33: \u takes the digits of a character in braces, as \u{3B1}
    production p of n = "\q" "\x1" "\u12"
                                    ^
feed.txt:4:1: there is one value only
    value no
    ^
"#,
    );
}

/// A mistake has its place also for the other commands, and nothing is written.
#[test]
fn a_mistake_in_a_description_that_is_assembled() {
    let description = "class t 1 to 4 { 'a' }\nproduction p of n = \"[\" m\nvalue yes\n";
    let desk = desk_with(description);
    let expected = r#"
feed.txt:2:25: no class or nonterminal is named `m`
    production p of n = "[" m
                            ^
"#;
    desk.kit(&["assemble", "feed.txt", "streams"])
        .refused(expected);
    desk.kit(&["lint", "feed.txt"]).refused(expected);
    assert_eq!(desk.names("."), ["feed.txt"]);
}

#[test]
fn a_bracket_that_another_closes() {
    check("value [\n  { a: yes\n  ]\n}\n").refused(
        r#"
feed.txt:3:3: the `{` at line 2, column 3 is closed by `}`, not by `]`
      ]
      ^
"#,
    );
}

#[test]
fn a_bracket_that_is_open_before_a_part() {
    check(&PAGE.replacen("    )\n  )", "    )", 1)).refused(r#"
feed.txt:20:1: the `(` at line 15, column 14 is not closed before `template`, which begins a part and is no name
    template line (entry: entry) of item =
    ^
"#);
}

#[test]
fn a_bracket_that_is_open_at_the_end() {
    check("value [\n  yes\n").refused(
        r#"
feed.txt:1:7: this `[` is not closed before the end of the description
    value [
          ^
"#,
    );
}

#[test]
fn parameters_that_are_left_open() {
    check(&PAGE.replacen("(page: page) of", "(page: page of", 1)).refused(
        r#"
feed.txt:14:27: the `(` at line 14, column 15 is not closed before `of`
    template main (page: page of page =
                              ^
"#,
    );
}

#[test]
fn a_separator_that_is_left_open() {
    check(&PAGE.replacen("(\", \")", "(\", \"", 1)).refused(
        r#"
feed.txt:4:51: `)` is expected here, not a text: the `(` at line 4, column 45 is not closed
    production page of page = "<" word ">" item*(", " "."
                                                      ^
"#,
    );
}

/// The bracket is named if it stands on another line.
#[test]
fn a_record_that_is_left_open() {
    check("type t = yesno\ntype r = record {\n  a: t\n= 7 }\n").refused(
        r#"
feed.txt:4:1: a field's name is expected here, not `=`
    = 7 }
    ^
  = the `{` at line 2, column 17 is still open here
"#,
    );
}

#[test]
fn an_empty_file() {
    check("").refused(
        r#"
feed.txt:1:1: the description has nothing for the grammar: no `class` and no `production`

    ^
feed.txt:1:1: the description has nothing for the templates: no `type` and no `template`

    ^
"#,
    );
}

#[test]
fn comments_alone() {
    check("# to be done\n").refused(
        r#"
feed.txt:2:1: the description has nothing for the grammar: no `class` and no `production`

    ^
feed.txt:2:1: the description has nothing for the templates: no `type` and no `template`

    ^
"#,
    );
}

#[test]
fn no_grammar() {
    check("type t = yesno\nvalue yes\n").refused(
        r#"
feed.txt:3:1: the description has nothing for the grammar: no `class` and no `production`

    ^
"#,
    );
}

#[test]
fn no_templates() {
    check("production p of n =\nvalue yes\n").refused(
        r#"
feed.txt:3:1: the description has nothing for the templates: no `type` and no `template`

    ^
"#,
    );
}

#[test]
fn a_label_in_the_wrong_place() {
    check(&changed("loud: yes }", "laud: yes }")).refused(
        r#"
feed.txt:24:69: the field `loud` comes here, not `laud`
    value { title: "αβ" entries: [ { word: "ab" loud: no } { word: "cd" laud: yes } ] }
                                                                        ^
"#,
    );
}

#[test]
fn a_description_from_a_device() {
    let said = desk().kit(&["check", "/dev/null"]);
    assert_eq!(said.status, Some(1));
    assert!(said
        .err
        .starts_with("/dev/null:1:1: the description has nothing"));
}
