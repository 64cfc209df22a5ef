//! `kit check` of nodes that don't suit their positions: 7, with the rule that failed.

use super::desk::{changed, desk_with, Said};

#[track_caller]
fn check(from: &str, to: &str) -> Said {
    desk_with(changed(from, to)).kit(&["check", "feed.txt"])
}

#[test]
fn a_list_where_a_text_is_due() {
    check("place page.title", "place page.entries").refused(r#"
feed.txt:16:5: a typing rule fails (refusal 7)
        place page.entries
        ^
  = class `word` is asked for here, by element 2 of production `page` (child 1)
  = the path `page.entries` finds a list (type `entries`), not a text
  = rule: "Class: a literal that is a lexeme, or a place whose path has type text of that very class."
"#);
}

#[test]
fn a_text_of_another_class() {
    let class = "class other 1 to 8 { 'a'-'z' }\ntype other = text other\ntype page = record { title: other";
    check("type page = record { title: word", class).refused(r#"
feed.txt:18:5: a typing rule fails (refusal 7)
        place page.title
        ^
  = class `word` is asked for here, by element 2 of production `page` (child 1)
  = the path `page.title` finds a text of class `other`
  = rule: "Class: a literal that is a lexeme, or a place whose path has type text of that very class."
"#);
}

#[test]
fn a_literal_that_is_no_lexeme() {
    check("place page.title", "literal \"Ab\"").refused(r#"
feed.txt:16:5: a typing rule fails (refusal 7)
        literal "Ab"
        ^
  = class `word` is asked for here, by element 2 of production `page` (child 1): 1 to 8 characters of U+0061-U+007A U+0370-U+03FF
  = this text has 2 characters, and number 1, U+0041 ('A'), is in no range
  = rule: "A lexeme of a class is well-formed UTF-8 (RFC 3629) with a character count from least to most, each character in some range. Counts are of characters, never bytes."
"#);
}

#[test]
fn a_literal_that_is_too_long() {
    check("place page.title", "literal \"ελευθερία\"").refused(r#"
feed.txt:16:5: a typing rule fails (refusal 7)
        literal "ελευθερία"
        ^
  = class `word` is asked for here, by element 2 of production `page` (child 1): 1 to 8 characters of U+0061-U+007A U+0370-U+03FF
  = this text has 9 characters, 1 too many
  = rule: "A lexeme of a class is well-formed UTF-8 (RFC 3629) with a character count from least to most, each character in some range. Counts are of characters, never bytes."
"#);
}

#[test]
fn a_literal_that_xml_does_not_admit() {
    check("place page.title", "literal \"a\\u{b}\"").refused(r#"
feed.txt:16:5: a typing rule fails (refusal 7)
        literal "a\u{b}"
        ^
  = class `word` is asked for here, by element 2 of production `page` (child 1): 1 to 8 characters of U+0061-U+007A U+0370-U+03FF
  = this text has 2 characters, and number 2, U+000B (vertical tab), is one that XML 1.0 admits nowhere, whatever the ranges are
  = rule: "XML 1.0 admits only U+0009, U+000A, U+000D, U+0020-U+D7FF, U+E000-U+FFFD and U+10000-U+10FFFF. A character of a lexeme must from now on be one of these as well as lie in a range of its class."
"#);
}

#[test]
fn a_literal_that_is_not_escaped() {
    check(
        "build note (place entry.word)",
        "build note (literal \"a&b\")",
    )
    .refused(r#"
feed.txt:22:34: a typing rule fails (refusal 7)
      if entry.loud then build note (literal "a&b") else build entry (place entry.word)
                                     ^
  = class `safe`, the escaped form of class `word`, is asked for here, by element 2 of production `note` (child 1)
  = a literal is written as it stands, so it must be the escaped text itself
  = character 2: & is written &amp;
  = rule: "Its lexemes are the plain lexemes with & < > " ' turned into the five predefined entities of XML 1.0 (amp, lt, gt, quot, apos). A place there takes text of the plain class and writes the entities."
"#);
}

#[test]
fn a_build_where_a_class_is_asked_for() {
    check("place page.title", "build note (place page.title)").refused(r#"
feed.txt:16:5: a typing rule fails (refusal 7)
        build note (place page.title)
        ^
  = class `word` is asked for here, by element 2 of production `page` (child 1)
  = a literal or a place stands for a class, and a build stands here
  = rule: "Class: a literal that is a lexeme, or a place whose path has type text of that very class."
"#);
}

#[test]
fn a_build_of_another_nonterminal() {
    check("then build note", "then build page").refused(r#"
feed.txt:22:22: a typing rule fails (refusal 7)
      if entry.loud then build page (place entry.word) else build entry (place entry.word)
                         ^
  = nonterminal `item` is asked for here, as the first branch of the if
  = production `page` is one of nonterminal `page`
  = the productions of nonterminal `item` are `entry`, `note`
  = rule: "Nonterminal: a build of one of its productions, an expand of a template with that nonterminal and argument types equal by number, or an if on yes/no with both branches in the same position."
"#);
}

#[test]
fn a_build_with_too_few_children() {
    check("build note (place entry.word)", "build note ()").refused(r#"
feed.txt:22:22: a typing rule fails (refusal 7)
      if entry.loud then build note () else build entry (place entry.word)
                         ^
  = production `note` has 1 element that is no keyword, and none stands here
  = it asks for class `safe`
  = rule: "A build with another number of children, or an expand with another number of paths, breaks the typing."
"#);
}

#[test]
fn an_expand_of_another_nonterminal() {
    check("expand line (entry)", "expand main (page)").refused(r#"
feed.txt:18:36: a typing rule fails (refusal 7)
          for entry in page.entries do expand main (page)
                                       ^
  = nonterminal `item` is asked for here, as the body of the for
  = template `main` is one of nonterminal `page`
  = the template of nonterminal `item` is `line`
  = rule: "Nonterminal: a build of one of its productions, an expand of a template with that nonterminal and argument types equal by number, or an if on yes/no with both branches in the same position."
"#);
}

#[test]
fn an_expand_without_its_path() {
    check("expand line (entry)", "expand line ()").refused(r#"
feed.txt:18:36: a typing rule fails (refusal 7)
          for entry in page.entries do expand line ()
                                       ^
  = template `line` takes 1 path (`entry`: type `entry`), and none stands here
  = rule: "A build with another number of children, or an expand with another number of paths, breaks the typing."
"#);
}

#[test]
fn an_expand_with_a_path_of_another_type() {
    check("expand line (entry)", "expand line (page)").refused(r#"
feed.txt:18:36: a typing rule fails (refusal 7)
          for entry in page.entries do expand line (page)
                                       ^
  = path 1 finds type `page`, and parameter `entry` of template `line` is of type `entry`
  = rule: "Nonterminal: a build of one of its productions, an expand of a template with that nonterminal and argument types equal by number, or an if on yes/no with both branches in the same position."
"#);
}

#[test]
fn an_if_on_a_text() {
    check("if entry.loud", "if entry.word").refused(r#"
feed.txt:22:3: a typing rule fails (refusal 7)
      if entry.word then build note (place entry.word) else build entry (place entry.word)
      ^
  = an if asks for yes or no, and the path `entry.word` finds a text of class `word`
  = rule: "Nonterminal: a build of one of its productions, an expand of a template with that nonterminal and argument types equal by number, or an if on yes/no with both branches in the same position."
"#);
}

#[test]
fn a_for_over_a_record() {
    check("in page.entries do", "in page do").refused(r#"
feed.txt:18:7: a typing rule fails (refusal 7)
          for entry in page do expand line (entry)
          ^
  = a for goes over a list, and the path `page` finds a record (type `page`)
  = rule: "Repetition: a sequence, whose items are nodes in the position of its nonterminal or a for over a list, whose body is one such node."
"#);
}

#[test]
fn a_for_that_is_no_item_of_a_sequence() {
    check("build page (", "for i in page.entries do build page (").refused(r#"
feed.txt:15:3: a typing rule fails (refusal 7)
      for i in page.entries do build page (
      ^
  = nonterminal `page` is asked for here, as the body of template `main`
  = a for stands only as an item of a sequence
  = the production of nonterminal `page` is `page`
  = rule: "Nonterminal: a build of one of its productions, an expand of a template with that nonterminal and argument types equal by number, or an if on yes/no with both branches in the same position."
"#);
}

#[test]
fn a_build_where_a_repetition_is_asked_for() {
    check("sequence (", "build entry (").refused(r#"
feed.txt:17:5: a typing rule fails (refusal 7)
        build entry (
        ^
  = a repetition of nonterminal `item` is asked for here, by element 4 of production `page` (child 2)
  = only a sequence stands for a repetition, and a build stands here
  = rule: "Repetition: a sequence, whose items are nodes in the position of its nonterminal or a for over a list, whose body is one such node."
"#);
}

#[test]
fn a_field_that_is_not_there() {
    check("place page.title", "place page.7").refused(r#"
feed.txt:16:5: a path names a variable or field that isn't there (refusal 7)
        place page.7
        ^
  = type `page` has no field 7: it has `title`, `entries`
  = rule: "A typing rule fails, or a path names a variable or field that isn't there (place of the node that holds the path or itself doesn't suit its position, never the one above it; 0, and tried first, if template 0 is missing or has not one parameter)."
"#);
}

#[test]
fn a_variable_that_is_not_there() {
    check("place page.title", "place 3").refused(r#"
feed.txt:16:5: a path names a variable or field that isn't there (refusal 7)
        place 3
        ^
  = variable 3 isn't there: 1 variable is known here: `page`
  = rule: "A typing rule fails, or a path names a variable or field that isn't there (place of the node that holds the path or itself doesn't suit its position, never the one above it; 0, and tried first, if template 0 is missing or has not one parameter)."
"#);
}

/// The value's labels aren't blamed for it.
#[test]
fn a_root_with_two_parameters() {
    check("main (page: page)", "main (page: page, more: page)").refused(r#"
feed.txt:14:10: template 0 is missing or has not one parameter (refusal 7)
    template main (page: page, more: page) of page =
             ^
  = template `main` has 2 parameters: the first template is the root, and its one parameter is the value
  = rule: "A typing rule fails, or a path names a variable or field that isn't there (place of the node that holds the path or itself doesn't suit its position, never the one above it; 0, and tried first, if template 0 is missing or has not one parameter)."
"#);
}

#[test]
fn no_template() {
    let description = "production p of n =\ntype t = yesno\nvalue yes\n";
    desk_with(description)
        .kit(&["check", "feed.txt"])
        .refused(r#"
feed.txt:2:6: template 0 is missing or has not one parameter (refusal 7)
    type t = yesno
         ^
  = there is no template: the first template is the root, and its one parameter is the value
  = rule: "A typing rule fails, or a path names a variable or field that isn't there (place of the node that holds the path or itself doesn't suit its position, never the one above it; 0, and tried first, if template 0 is missing or has not one parameter)."
"#);
}
