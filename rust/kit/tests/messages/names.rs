//! `kit check` of names and classes that the proved check refuses: 5 and 6.

use super::desk::{changed, desk_with, Said};

#[track_caller]
fn check(from: &str, to: &str) -> Said {
    desk_with(changed(from, to)).kit(&["check", "feed.txt"])
}

#[test]
fn a_field_of_a_later_type() {
    check("loud: flag", "loud: entries").refused(r#"
feed.txt:10:35: a class, nonterminal, production, template or type named doesn't exist, or a field names no earlier type, or a text type names an escaped class (refusal 5)
    type entry = record { word: word, loud: entries }
                                      ^
  = field `loud` of type `entry` is of type `entries`, which comes later: a field's type stands earlier than its record
  = rule: "A class, nonterminal, production, template or type named doesn't exist, or a field names no earlier type."
"#);
}

#[test]
fn a_field_of_its_own_type() {
    check("loud: flag", "loud: entry").refused(r#"
feed.txt:10:35: a class, nonterminal, production, template or type named doesn't exist, or a field names no earlier type, or a text type names an escaped class (refusal 5)
    type entry = record { word: word, loud: entry }
                                      ^
  = field `loud` of type `entry` is of that very type: a field's type stands earlier, and only a list may name any type
  = rule: "A class, nonterminal, production, template or type named doesn't exist, or a field names no earlier type."
"#);
}

#[test]
fn a_text_of_an_escaped_class() {
    check("text word", "text safe").refused(r#"
feed.txt:8:6: a class, nonterminal, production, template or type named doesn't exist, or a field names no earlier type, or a text type names an escaped class (refusal 5)
    type word = text safe
         ^
  = class `safe` is the escaped form of class `word`
  = a text is kept plain, so its type names class `word`; a place writes the entities where class `safe` is asked for
  = rule: "An escaped class naming no earlier plain class, or a text type naming an escaped class, is refused as 5."
"#);
}

#[test]
fn an_escaped_class_of_an_escaped_one() {
    check(
        "\n\nproduction page",
        "\nclass twice = escaped safe\n\nproduction page",
    )
    .refused(r#"
feed.txt:3:7: a class or nonterminal named doesn't exist, or an escaped class names no earlier plain class (refusal 5)
    class twice = escaped safe
          ^
  = class `twice` is to be the escaped form of class `safe`: that is an escaped class, too
  = the plain class before it is `word`
  = rule: "An escaped class naming no earlier plain class, or a text type naming an escaped class, is refused as 5."
"#);
}

#[test]
fn an_escaped_class_of_a_later_one() {
    check("class word", "class early = escaped word\nclass word").refused(r#"
feed.txt:1:7: a class or nonterminal named doesn't exist, or an escaped class names no earlier plain class (refusal 5)
    class early = escaped word
          ^
  = class `early` is to be the escaped form of class `word`: that comes later
  = no plain class stands before it
  = rule: "An escaped class naming no earlier plain class, or a text type naming an escaped class, is refused as 5."
"#);
}

#[test]
fn a_class_with_least_above_most() {
    check("1 to 8", "9 to 8").refused(r#"
feed.txt:1:7: a class has least above most, or a range has lowest above highest or passes U+10FFFF (refusal 6)
    class word 9 to 8 { 'a'-'z' U+0370-U+03FF }
          ^
  = class `word` has least 9 above most 8
  = rule: "A class has least above most, or a range has lowest above highest or passes U+10FFFF."
"#);
}

#[test]
fn a_range_upside_down() {
    check("'a'-'z'", "'z'-'a'").refused(r#"
feed.txt:1:21: a class has least above most, or a range has lowest above highest or passes U+10FFFF (refusal 6)
    class word 1 to 8 { 'z'-'a' U+0370-U+03FF }
                        ^
  = the range U+007A-U+0061 of class `word` has its lowest above its highest
  = rule: "A class has least above most, or a range has lowest above highest or passes U+10FFFF."
"#);
}

#[test]
fn a_range_past_the_last_character() {
    check("U+03FF", "U+110000").refused(r#"
feed.txt:1:29: a class has least above most, or a range has lowest above highest or passes U+10FFFF (refusal 6)
    class word 1 to 8 { 'a'-'z' U+0370-U+110000 }
                                ^
  = the range U+0370-U+110000 of class `word` passes U+10FFFF
  = rule: "A class has least above most, or a range has lowest above highest or passes U+10FFFF."
"#);
}
