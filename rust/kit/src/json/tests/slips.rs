//! Helpful words about common slips.

use super::says;

#[test]
fn texts_in_other_quotes() {
    let says = |json: &str, column, expected: &str| {
        let message = format!("{expected}: texts stand in double quotes in JSON");
        says(json, 1, column, &message);
    };
    says("'a b'", 1, "a value is expected here, not `'a b'`");
    says("[1,'a b\n", 4, "a value is expected after `,`, not `'a b`");
    says("['", 2, "a value or `]` is expected here, not `'`");
    says("[“a”]", 2, "a value or `]` is expected here, not `“`");
    says("[1 'a']", 4, "`]` or `,` is expected here, not `'a'`");
}

#[test]
fn texts_without_quotes() {
    let says = |json: &str, column, expected: &str| {
        let message = format!("{expected}: texts stand in double quotes in JSON");
        says(json, 1, column, &message);
    };
    says("{\"a\": hello}", 7, "a value is expected here, not `hello`");
    says("[αβ γ]", 2, "a value or `]` is expected here, not `αβ`");
    says(
        "[truely]",
        2,
        "a value or `]` is expected here, not `truely`",
    );
    says("[...]", 2, "a value or `]` is expected here, not `...`");
}

#[test]
fn keys_without_double_quotes() {
    let says = |json: &str, column, expected: &str| {
        let message = format!("{expected}: keys stand in double quotes in JSON");
        says(json, 1, column, &message);
    };
    says("{'a': 1}", 2, "a key or `}` is expected here, not `'a'`");
    says("{a: 1}", 2, "a key or `}` is expected here, not `a`");
    says("{$a_1: 1}", 2, "a key or `}` is expected here, not `$a_1`");
    says("{“a”: 1}", 2, "a key or `}` is expected here, not `“`");
    says(
        "{\"a\": 1, 2: 3}",
        10,
        "a key is expected after `,`, not `2`",
    );
}

#[test]
fn quotes_within_a_text() {
    let says = |json: &str, column, expected: &str| {
        let message = format!("{expected}: a quote within a text is written `\\\"`");
        says(json, 1, column, &message);
    };
    let next = "`]` or `,` is expected here, not `he`";
    says(r#"["so "he" said"]"#, 7, next);
    says(
        r#"{"so "he": 1}"#,
        7,
        "`:` is expected after a key, not `he`",
    );
}

#[test]
fn comments() {
    let says = |json: &str, column, expected: &str| {
        says(
            json,
            1,
            column,
            &format!("{expected}: JSON has no comments"),
        );
    };
    says("// a\n{}", 1, "a value is expected here, not `// a`");
    says("# a\r\n{}", 1, "a value is expected here, not `# a`");
    let rest = "a key or `}` is expected here, not `/* a */ }`";
    says("{ /* a */ }", 3, rest);
    says(
        "{\"a\":1, //\n}",
        9,
        "a key is expected after `,`, not `//`",
    );
    says("[1 //", 4, "`]` or `,` is expected here, not `//`");
    says(
        "{\"a\" # b\n:1}",
        6,
        "`:` is expected after a key, not `# b`",
    );
    says(
        "1 # b",
        3,
        "the end of the file is expected here, not `# b`",
    );
}

#[test]
fn other_spaces() {
    let blanks = "only spaces, tabs and line breaks stand between the values of JSON";
    for (space, shown) in [("\u{A0}", "a0"), ("\u{FEFF}", "feff"), ("\x0C", "c")] {
        let value = format!("a value or `]` is expected here, not `\\u{{{shown}}}`: {blanks}");
        says(format!("[{space}1]"), 1, 2, &value);
        let end = format!("`]` or `,` is expected here, not `\\u{{{shown}}}`: {blanks}");
        says(format!("[1{space}]"), 1, 3, &end);
    }
}

#[test]
fn words_of_other_languages() {
    for (word, help) in [
        ("True", "it is written `true` in JSON"),
        ("FALSE", "it is written `false` in JSON"),
        ("yes", "it is written `true` in JSON"),
        ("off", "it is written `false` in JSON"),
        ("None", "it is written `null` in JSON"),
        ("NULL", "it is written `null` in JSON"),
        ("nil", "it is written `null` in JSON"),
        ("undefined", "it is written `null` in JSON"),
        ("NaN", "JSON has no such number"),
        ("Infinity", "JSON has no such number"),
        ("-Infinity", "JSON has no such number"),
        ("+inf", "JSON has no such number"),
    ] {
        let message = format!("a value is expected here, not `{word}`: {help}");
        says(format!("{{\"a\": {word}}}"), 1, 7, &message);
    }
}

#[test]
fn numbers_of_other_languages() {
    let no_number = "this is no number, and texts stand in double quotes in JSON";
    for (word, help) in [
        ("01", "a number has no leading zero"),
        ("-007", "a number has no leading zero"),
        ("00", "a number has no leading zero"),
        ("+1", "a number has no plus sign before it"),
        ("+", "a number has no plus sign before it"),
        (".5", "a digit stands before the point of a number"),
        ("-.5", "a digit stands before the point of a number"),
        ("1.", "a digit stands after the point of a number"),
        ("1.e5", "a digit stands after the point of a number"),
        ("-", "a digit stands after the minus sign of a number"),
        ("--1", "a digit stands after the minus sign of a number"),
        ("1e", "a digit stands in the exponent of a number"),
        ("1E+x", "a digit stands in the exponent of a number"),
        ("0x1F", "JSON has no hexadecimal numbers"),
        ("-0XfF", "JSON has no hexadecimal numbers"),
        ("1_000", no_number),
        ("2024-05-01", no_number),
        ("1.2.3", no_number),
        ("12kg", no_number),
    ] {
        let message = format!("a value is expected after `,`, not `{word}`: {help}");
        says(format!("[0,\n{word}]"), 2, 1, &message);
    }
}
