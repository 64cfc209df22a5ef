//! Mistakes have their messages and their places.

use super::says;

#[test]
fn marks_at_the_start_of_the_file() {
    let mark = "the file begins with a byte-order mark";
    let without = format!("{mark} (U+FEFF): save it without one");
    says(b"\xEF\xBB\xBF{}", 1, 1, &without);
    says("\u{FEFF}", 1, 1, &without);
    let other = format!("{mark} of UTF-16: save it as UTF-8, without one");
    says(b"\xFF\xFE{\0}\0", 1, 1, &other);
    says(b"\xFE\xFF\0{\0}", 1, 1, &other);
}

#[test]
fn bytes_that_are_no_text() {
    let says = |json: &[u8], line, column, bytes: &str| {
        let message = format!("`{bytes}` is no UTF-8: save the file as UTF-8");
        says(json, line, column, &message);
    };
    says(b"{\n \"\xCE\xB1\": \"caf\xE9\"}", 2, 11, r"\xE9");
    says(b"[1,\xC0\x80]", 1, 4, r"\xC0");
    says(b"\"\xED\xA0\x80\"", 1, 2, r"\xED");
    says(b"\"\xF0\x9F\x98", 1, 2, r"\xF0\x9F\x98");
    says(b"\"\xF0\x9F\x98\"", 1, 2, r"\xF0\x9F\x98");
    says(b"\xF5", 1, 1, r"\xF5");
    says(b"} \x80", 1, 3, r"\x80");
}

#[test]
fn keys_that_stand_twice() {
    let says = |json: &str, line, column, key: &str, first: usize| {
        let message = format!("{key} stands in this object already, at line {first}");
        says(json, line, column, &message);
    };
    let title = "{\n\n \"title\": 1,\n \"a\": {\"title\": 2},\n \"title\": 3}";
    says(title, 5, 2, "the key `title`", 3);
    says(r#"{"a": 1, "\u0061": 2}"#, 1, 10, "the key `a`", 1);
    says(r#"[{"": 1, "": 2}]"#, 1, 10, "the empty key", 1);
    let long = format!("{{\"{0}\": 1, \"{0}\" 2}}", "\\n".repeat(30));
    let cut = format!("the key `{} ..`", "\\n".repeat(20));
    says(&long, 1, 69, &cut, 1);
}

#[test]
fn the_same_key_in_two_objects() {
    super::form(r#"[{"a": 1}, {"a": {"a": 2}, "A": {"a": 3}}, {"a": 4}]"#);
}

#[test]
fn arrays_and_objects_without_their_end() {
    let says = |json: &str, line, column, expected: &str, opener: &str| {
        let message = format!("{expected}, not the end of the file: the {opener} is not closed");
        says(json, line, column, &message);
    };
    let list = "`[` at line 1, column 1";
    says("[\n", 2, 1, "a value or `]` is expected here", list);
    says("[1,", 1, 4, "a value is expected after `,`", list);
    says("[[]", 1, 4, "`]` or `,` is expected here", list);
    let inner = "`[` at line 2, column 5";
    says("{\n\"a\":[1", 2, 7, "`]` or `,` is expected here", inner);
    let object = "`{` at line 1, column 1";
    says("{ ", 1, 3, "a key or `}` is expected here", object);
    says("{\"a\"", 1, 5, "`:` is expected after a key", object);
    says("{\"a\":", 1, 6, "a value is expected here", object);
    says("{\"a\":[] ", 1, 9, "`}` or `,` is expected here", object);
    says("{\"a\":1,", 1, 8, "a key is expected after `,`", object);
    let inner = "`{` at line 1, column 2";
    says("[{", 1, 3, "a key or `}` is expected here", inner);
}

#[test]
fn another_sign_closes() {
    let says = |json: &str, column, expected: &str, opener: &str| {
        let message = format!("{expected}: the {opener} is not closed");
        says(json, 1, column, &message);
    };
    let list = "`[` at line 1, column 6";
    says(
        "{\"a\":[1}",
        8,
        "`]` or `,` is expected here, not `}`",
        list,
    );
    says(
        "{\"a\":[}",
        7,
        "a value or `]` is expected here, not `}`",
        list,
    );
    let object = "`{` at line 1, column 2";
    says("[{]", 3, "a key or `}` is expected here, not `]`", object);
    says("[{\"a\":]", 7, "a value is expected here, not `]`", object);
}

#[test]
fn a_value_is_expected() {
    let end = "a value is expected here, not the end of the file";
    says("", 1, 1, end);
    says(" \n\t", 2, 2, end);
    says("}", 1, 1, "a value is expected here, not `}`");
    says("{\"a\": }", 1, 7, "a value is expected here, not `}`");
    says("{\"a\"::1}", 1, 6, "a value is expected here, not `:`");
    says("[,]", 1, 2, "a value or `]` is expected here, not `,`");
    says("[1,,2]", 1, 4, "a value is expected after `,`, not `,`");
}

#[test]
fn a_sign_is_expected() {
    says("{\"a\", 1}", 1, 5, "`:` is expected after a key, not `,`");
    says("{\"a\" = 1}", 1, 6, "`:` is expected after a key, not `=`");
    says("{\"a\"}", 1, 5, "`:` is expected after a key, not `}`");
    says("[1 2]", 1, 4, "`]` or `,` is expected here, not `2`");
    says(
        "[true false]",
        1,
        7,
        "`]` or `,` is expected here, not `false`",
    );
    says(
        "[1\n \"b\"]",
        2,
        2,
        "`]` or `,` is expected here, not `\"b\"`",
    );
    says("[\"a\": 1]", 1, 5, "`]` or `,` is expected here, not `:`");
    says("{\"a\": 1; }", 1, 8, "`}` or `,` is expected here, not `;`");
    says("{,}", 1, 2, "a key or `}` is expected here, not `,`");
    says("{[]}", 1, 2, "a key or `}` is expected here, not `[`");
    says("{\"a\":1,,}", 1, 8, "a key is expected after `,`, not `,`");
}

#[test]
fn the_end_is_expected() {
    let end = "the end of the file is expected here, not";
    says("{} {}", 1, 4, &format!("{end} `{{`"));
    says("1 2", 1, 3, &format!("{end} `2`"));
    says("[]\n]", 2, 1, &format!("{end} `]`"));
    says("null,", 1, 5, &format!("{end} `,`"));
    says("1/2", 1, 2, &format!("{end} `/`"));
}

/// They are shown at the comma, which is the character to take away.
#[test]
fn trailing_commas() {
    let comma = "a trailing comma:";
    let value = format!("{comma} a value is expected after `,`, not `]`");
    says("[1,]", 1, 3, &value);
    says("[1,\n2\n,\n]", 3, 1, &value);
    let key = format!("{comma} a key is expected after `,`, not `}}`");
    says("{\"a\": 1, }", 1, 8, &key);
}

#[test]
fn what_stands_there_is_cut() {
    let (long, cut) = ("x".repeat(1_000_000), "x".repeat(40));
    let texts = "texts stand in double quotes in JSON";
    let word = format!("a value is expected here, not `{cut} ..`: {texts}");
    says(&long, 1, 1, &word);
    let text = format!("`]` or `,` is expected here, not `\"{} ..`", &cut[1..]);
    says(format!("[1 \"{long}\"]"), 1, 4, &text);
    says(format!("[1 \"{long}"), 1, 4, &text);
    let line = "`]` or `,` is expected here, not `\"ab`";
    says("[1 \"ab\n\"]", 1, 4, line);
}

#[test]
fn what_cannot_be_seen_is_escaped() {
    let value = "a value is expected here, not";
    says("\0", 1, 1, &format!("{value} `\\u{{0}}`"));
    says("\x1B[0m", 1, 1, &format!("{value} `\\u{{1b}}`"));
    says("\u{202E}", 1, 1, &format!("{value} `\\u{{202e}}`"));
}
