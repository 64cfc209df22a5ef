//! Variants and matches in descriptions: `kit check` of what is wrong with them, and with a value's cases.

use super::desk::{desk_with, Said};

/// A small page of media, each of which is audio or video.
pub const MEDIA: &str = r#"class word 1 to 8 { 'a'-'z' }
class number 1 to 5 { '0'-'9' }

production page of page = item*(", ") "."
production sound of item = "a:" word
production film of item = "v:" word " " number "x" number

type word = text word
type number = text number
type audio = record { title: word }
type video = record { title: word, width: number, height: number }
type medium = variant { audio: audio, video: video }
type media = list medium

template main (media: media) of page =
  build page (
    sequence (
      for medium in media do
        match medium (
          video as film then build film (place film.title place film.width place film.height)
          audio as sound then build sound (place sound.title)
        )
    )
  )
"#;

/// A value for it.
pub const VALUE: &str = r#"value [ case audio { "ab" } case video { title: "cd" width: "12" height: "7" } ]
"#;

/// The page and its value, with another part.
pub fn changed(from: &str, to: &str) -> String {
    let page = format!("{MEDIA}{VALUE}");
    assert!(page.contains(from), "{from}");
    page.replacen(from, to, 1)
}

#[track_caller]
fn check(from: &str, to: &str) -> Said {
    desk_with(changed(from, to)).kit(&["check", "feed.txt"])
}

#[test]
fn a_variant_and_a_match() {
    check("", "").done(
        r#"
feed.txt: accepted, and gives a text of 16 bytes in 11 steps
"#,
    );
}

#[test]
fn what_is_rendered() {
    desk_with(changed("", ""))
        .kit(&["render", "feed.txt"])
        .done(
            r#"
a:ab, v:cd 12x7."#,
        );
}

#[test]
fn a_missing_arm() {
    check(
        "          audio as sound then build sound (place sound.title)\n",
        "",
    )
    .refused(
        r#"
feed.txt:19:9: this match has no arm for case `audio`
            match medium (
            ^
"#,
    );
}

#[test]
fn an_arm_twice() {
    check("audio as sound", "video as sound").refused(
        r#"
feed.txt:19:9: this match has no arm for case `audio`
            match medium (
            ^
feed.txt:21:11: case `video` has an arm already, at line 20
              video as sound then build sound (place sound.title)
              ^
"#,
    );
}

#[test]
fn a_misspelt_arm() {
    check("video as film", "vidoe as film").refused(
        r#"
feed.txt:20:11: the type `medium` has no case `vidoe`: did you mean `video`?
              vidoe as film then build film (place film.title place film.width place film.height)
              ^
"#,
    );
}

#[test]
fn an_arm_for_no_case() {
    check("          audio as sound then build sound (place sound.title)\n", "          audio as sound then build sound (place sound.title)\n          text as sound then build sound (place sound.title)\n").refused(r#"
feed.txt:22:11: the type `medium` has no case `text`: it has `audio`, `video`
              text as sound then build sound (place sound.title)
              ^
"#);
}

#[test]
fn a_match_on_a_list() {
    check("match medium (", "match media (").refused(
        r#"
feed.txt:19:15: a match asks for a variant, and the type `media` is none
            match media (
                  ^
"#,
    );
}

#[test]
fn a_path_into_a_variant() {
    check("match medium (", "match medium.audio (").refused(r#"
feed.txt:19:22: the type `medium` is no record, and has no field `audio`: a `match` leads to what its cases hold
            match medium.audio (
                         ^
"#);
}

#[test]
fn a_case_of_a_misspelt_type() {
    check("video: video }", "video: vidoe }").refused(
        r#"
feed.txt:12:46: no type is named `vidoe`: did you mean `video`?
    type medium = variant { audio: audio, video: vidoe }
                                                 ^
"#,
    );
}

#[test]
fn a_case_twice() {
    check(
        "audio: audio, video: video }",
        "audio: audio, video: video, audio: word }",
    )
    .refused(
        r#"
feed.txt:12:53: `audio` is a case already, at line 12
    type medium = variant { audio: audio, video: video, audio: word }
                                                        ^
"#,
    );
}

#[test]
fn an_arm_without_as() {
    check("audio as sound", "audio sound").refused(
        r#"
feed.txt:21:17: `as` is expected here, not `sound`
              audio sound then build sound (place sound.title)
                    ^
"#,
    );
}

#[test]
fn an_arm_without_then() {
    check("audio as sound then", "audio as sound do").refused(
        r#"
feed.txt:21:26: `then` is expected here, not `do`
              audio as sound do build sound (place sound.title)
                             ^
"#,
    );
}

#[test]
fn a_match_that_is_left_open() {
    check("        )\n    )\n  )\n", "    )\n  )\n").refused(r#"
feed.txt:24:1: the `(` at line 16, column 14 is not closed before `value`, which begins a part and is no name
    value [ case audio { "ab" } case video { title: "cd" width: "12" height: "7" } ]
    ^
"#);
}

#[test]
fn an_arm_of_another_nonterminal() {
    check("then build sound (place sound.title)", "then build page (sequence ())").refused(r#"
feed.txt:21:31: a typing rule fails (refusal 7)
              audio as sound then build page (sequence ())
                                  ^
  = nonterminal `item` is asked for here, as the arm of case `audio`
  = production `page` is one of nonterminal `page`
  = the productions of nonterminal `item` are `sound`, `film`
  = rule: "Nonterminal: a build of one of its productions, an expand of a template with that nonterminal and argument types equal by number, or an if on yes/no with both branches in the same position."
"#);
}

#[test]
fn a_for_as_an_arm() {
    check("then build sound (place sound.title)", r#"then for x in media do build sound (literal "a")"#).refused(r#"
feed.txt:21:31: a typing rule fails (refusal 7)
              audio as sound then for x in media do build sound (literal "a")
                                  ^
  = nonterminal `item` is asked for here, as the arm of case `audio`
  = a for stands only as an item of a sequence
  = the productions of nonterminal `item` are `sound`, `film`
  = rule: "Nonterminal: a build of one of its productions, an expand of a template with that nonterminal and argument types equal by number, or an if on yes/no with both branches in the same position."
"#);
}

#[test]
fn a_match_for_a_class() {
    check("place film.title", r#"match medium (audio as a then literal "a" video as v then literal "b")"#).refused(r#"
feed.txt:20:42: a typing rule fails (refusal 7)
              video as film then build film (match medium (audio as a then literal "a ..
                                             ^
  = class `word` is asked for here, by element 2 of production `film` (child 1)
  = a literal or a place stands for a class, and a match stands here
  = rule: "Class: a literal that is a lexeme, or a place whose path has type text of that very class."
"#);
}

#[test]
fn a_content_that_is_no_text() {
    check("place sound.title", "place sound").refused(r#"
feed.txt:21:44: a typing rule fails (refusal 7)
              audio as sound then build sound (place sound)
                                               ^
  = class `word` is asked for here, by element 2 of production `sound` (child 1)
  = the path `sound` finds a record (type `audio`), not a text
  = rule: "Class: a literal that is a lexeme, or a place whose path has type text of that very class."
"#);
}

#[test]
fn a_variable_that_no_arm_brings_in() {
    check("place sound.title", "place 3.0").refused(r#"
feed.txt:21:44: a path names a variable or field that isn't there (refusal 7)
              audio as sound then build sound (place 3.0)
                                               ^
  = variable 3 isn't there: 3 variables are known here: `media`, `medium`, `sound`
  = rule: "A typing rule fails, or a path names a variable or field that isn't there (place of the node that holds the path or itself doesn't suit its position, never the one above it; 0, and tried first, if template 0 is missing or has not one parameter)."
"#);
}

#[test]
fn fewer_arms_by_number() {
    check("match medium (\n          video as film then build film (place film.title place film.width place film.height)\n          audio as sound then build sound (place sound.title)\n        )", "match medium (0 as a then build sound (place a.title))").refused(r#"
feed.txt:19:9: a typing rule fails (refusal 7)
            match medium (0 as a then build sound (place a.title))
            ^
  = the path `medium` finds a variant (type `medium`) of 2 cases, and 1 arm stands here
  = no arm is for case `video`: the arms are for the cases in their order
  = rule: "Node form 7 is match: a path, then d nodes, one for each case in order, each seeing one more variable, the case's content. A missing or extra arm fails typing."
"#);
}

#[test]
fn more_arms_by_number() {
    check("match medium (\n          video as film then build film (place film.title place film.width place film.height)\n          audio as sound then build sound (place sound.title)\n        )", "match medium (\n          0 as a then build sound (place a.title)\n          1 as b then build sound (place b.title)\n          2 as c then build sound (literal \"a\")\n        )").refused(r#"
feed.txt:19:9: a typing rule fails (refusal 7)
            match medium (
            ^
  = the path `medium` finds a variant (type `medium`) of 2 cases, and 3 arms stand here
  = the last arm is for no case: the arms are for the cases in their order
  = rule: "Node form 7 is match: a path, then d nodes, one for each case in order, each seeing one more variable, the case's content. A missing or extra arm fails typing."
"#);
}

#[test]
fn a_number_without_its_arm() {
    check("video as film", "2 as film").refused(
        r#"
feed.txt:19:9: this match has no arm for case `video`
            match medium (
            ^
"#,
    );
}

#[test]
fn a_match_on_a_list_by_number() {
    check("match medium (\n          video as film then build film (place film.title place film.width place film.height)\n          audio as sound then build sound (place sound.title)\n        )", r#"match media (0 as a then build sound (literal "a"))"#).refused(r#"
feed.txt:19:9: a typing rule fails (refusal 7)
            match media (0 as a then build sound (literal "a"))
            ^
  = a match asks for a variant, and the path `media` finds a list (type `media`)
  = rule: "Node form 7 is match: a path, then d nodes, one for each case in order, each seeing one more variable, the case's content. A missing or extra arm fails typing."
"#);
}

#[test]
fn a_case_of_a_later_type() {
    check("type media = list medium\n", "type media = list medium\ntype other = variant { text: word, flag: later }\ntype later = yesno\n").refused(r#"
feed.txt:14:36: a class, nonterminal, production, template or type named doesn't exist, or a field names no earlier type, or a text type names an escaped class (refusal 5)
    type other = variant { text: word, flag: later }
                                       ^
  = case `flag` of type `other` is of type `later`, which comes later: a case's type stands earlier than its variant
  = rule: "A class, nonterminal, production, template or type named doesn't exist, or a field names no earlier type."
"#);
}

#[test]
fn a_case_of_its_own_type() {
    check("type media = list medium\n", "type media = list medium\ntype other = variant { text: word, inner: other }\n").refused(r#"
feed.txt:14:36: a class, nonterminal, production, template or type named doesn't exist, or a field names no earlier type, or a text type names an escaped class (refusal 5)
    type other = variant { text: word, inner: other }
                                       ^
  = case `inner` of type `other` is of that very type: a case's type stands earlier, and only a list may name any type
  = rule: "A class, nonterminal, production, template or type named doesn't exist, or a field names no earlier type."
"#);
}

#[test]
fn a_variant_without_a_case() {
    check(
        "type media = list medium\n",
        "type media = list medium\ntype other = variant { }\n",
    )
    .refused(
        r#"
feed.txt:14:6: a variant has at least one case
    type other = variant { }
         ^
"#,
    );
}
