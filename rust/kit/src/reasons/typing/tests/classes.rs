//! What stands where a class is asked for.

use super::*;

/// What is asked for, by name and with numbers.
const FIRST: [&str; 2] = [
    "class 0 is asked for here, by element 2 of production 0 (child 1)",
    "class `title` is asked for here, by element 2 of production `feed` (child 1)",
];

#[test]
fn a_literal_that_is_no_lexeme() {
    let (rule, said, named) = failing("place channel.title", "literal \"aB\"");
    assert_eq!(rule, LEXEME);
    assert_eq!(
        named,
        [
            format!("{}: 1 to 4 characters of U+0061-U+007A", FIRST[1]),
            "this text has 2 characters, and number 2, U+0042 ('B'), is in no range".to_string()
        ]
    );
    assert!(said[0].starts_with(FIRST[0]));
    let (rule, said, _) = failing("place channel.title", "literal \"abcde\"");
    assert_eq!(
        (rule, said[1].as_str()),
        (LEXEME, "this text has 5 characters, 1 too many")
    );
    let (rule, ..) = failing("place channel.title", "literal \"\\xFF\"");
    assert_eq!(rule, LEXEME);
    let (rule, ..) = failing("place channel.title", "literal \"Abcde\\u{b}\"");
    assert_eq!(rule, ADMITTED);
}

#[test]
fn a_literal_of_an_escaped_class() {
    let literal = |text: &str| failing("literal \"a\"", &format!("literal \"{text}\""));
    let (rule, _, named) = literal("a&b");
    assert_eq!(rule, ESCAPED);
    assert_eq!(
        named,
        [
            "class `xml`, the escaped form of class `title`, is asked for here, \
             by element 4 of production `feed` (child 3)",
            "a literal is written as it stands, so it must be the escaped text itself",
            "character 2: & is written &amp;"
        ]
    );
    let (rule, said, _) = literal("&amp;");
    assert_eq!(rule, LEXEME);
    assert_eq!(
        said[2..],
        [
            "it stands for \"&\"",
            "due are 1 to 4 characters of U+0061-U+007A",
            "this text has 1 character, and number 1, U+0026 ('&'), is in no range"
        ]
    );
    assert_eq!(literal("&lt;\\u{b}").0, ADMITTED);
    let (rule, said, _) = literal("\\xFF");
    assert_eq!(
        (rule, said[2].as_str()),
        (LEXEME, "this text is no well-formed UTF-8")
    );
}

#[test]
fn a_place_of_another_type() {
    let (rule, said, named) = failing("place channel.title", "place channel.link");
    assert_eq!(rule, CLASS);
    assert_eq!(
        said,
        [
            FIRST[0],
            "the path (variable 0, field 1) finds a text of class 1"
        ]
    );
    assert_eq!(
        named,
        [
            FIRST[1],
            "the path `channel.link` finds a text of class `address`"
        ]
    );
    let finds = |path: &str| {
        let (rule, said, named) = failing("place channel.title", &format!("place {path}"));
        assert_eq!(rule, CLASS);
        [said[1].clone(), named[1].clone()]
    };
    assert_eq!(
        finds("channel.episodes"),
        [
            "the path (variable 0, field 3) finds a list (type 5), not a text",
            "the path `channel.episodes` finds a list (type `episodes`), not a text"
        ]
    );
    assert_eq!(
        finds("channel")[1],
        "the path `channel` finds a record (type `channel`), not a text"
    );
    assert_eq!(
        finds("channel.loud")[1],
        "the path `channel.loud` finds yes or no (type `flag`), not a text"
    );
}

#[test]
fn something_else_where_a_class_is_asked_for() {
    let (rule, said, _) = failing("place channel.title", "build yes");
    assert_eq!(rule, CLASS);
    assert_eq!(
        said,
        [
            FIRST[0],
            "a literal or a place stands for a class, and a build stands here"
        ]
    );
    let (rule, said, _) = failing("place channel.title", "expand flag (channel.loud)");
    assert_eq!(rule, CLASS);
    assert!(said[1].ends_with("an expand stands here"));
    let (rule, said, _) = failing("place channel.title", "sequence ()");
    assert_eq!(rule, CLASS);
    assert!(said[1].ends_with("a sequence stands here"));
}
