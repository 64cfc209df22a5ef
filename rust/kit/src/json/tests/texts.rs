//! Texts, their escapes and their mistakes.

use super::super::{quoted, Form};
use super::{form, says};

#[track_caller]
fn reads(json: &str, text: &str) {
    assert_eq!(form(json), Form::Text(text.to_string()), "{json}");
}

#[test]
fn every_escape() {
    reads(r#""\"\\\/\b\f\n\r\t""#, "\"\\/\x08\x0C\n\r\t");
    reads(
        r#""\u0000\u001f\u0041\u03b1\u03B1\uFFFF""#,
        "\0\x1FAαα\u{FFFF}",
    );
    reads(r#""a\u0062c\\u0064""#, "abc\\u0064");
    reads(
        "\"\x7F\u{80}\u{2028}\u{FEFF}\"",
        "\x7F\u{80}\u{2028}\u{FEFF}",
    );
}

#[test]
fn surrogate_pairs() {
    reads(r#""\uD83D\uDE00""#, "😀");
    reads(r#""\ud800\udc00\uDBFF\uDFFF""#, "\u{10000}\u{10FFFF}");
    reads(r#""\uD7FF\uE000""#, "\u{D7FF}\u{E000}");
}

#[test]
fn texts_as_json_writes_them() {
    assert_eq!(quoted(""), r#""""#);
    assert_eq!(quoted("a\"\\/'"), r#""a\"\\/'""#);
    assert_eq!(
        quoted("\0\x08\t\n\x0B\x0C\r\x1F\x7F"),
        "\"\\u0000\\b\\t\\n\\u000b\\f\\r\\u001f\x7F\""
    );
    assert_eq!(quoted("α😀\u{2028}"), "\"α😀\u{2028}\"");
}

#[test]
fn all_of_unicode_is_written_and_read() {
    let all: String = ('\0'..=char::MAX).collect();
    reads(&quoted(&all), &all);
}

#[test]
fn all_of_unicode_is_read_from_escapes() {
    let mut json = String::from("\"");
    let all: String = ('\0'..=char::MAX).collect();
    for unit in all.encode_utf16() {
        json.push_str(&format!("\\u{unit:04x}"));
    }
    reads(&(json + "\""), &all);
}

#[test]
fn escapes_that_json_has_not() {
    let escapes = "a backslash stands before one of \" \\ / b f n r t u in a text, not before";
    for (wrong, shown) in [
        ("q", "q"),
        ("'", "'"),
        ("x41", "x"),
        ("0", "0"),
        ("U0041", "U"),
        ("α", "α"),
        ("\n", "\\n"),
    ] {
        let message = format!("{escapes} `{shown}`");
        says(format!("[\n\"αb\\{wrong}\"]"), 2, 4, &message);
    }
}

#[test]
fn digits_that_are_missing() {
    let says = |json: &str, shown: &str| {
        let message = format!("`\\u` takes four hexadecimal digits, not `{shown}`");
        says(json, 1, 2, &message);
    };
    says(r#""\u00g0""#, "00g0");
    says(r#""\u+123""#, "+123");
    says(r#""\u{3b1}""#, "{3b1");
    says(r#""\u12""#, "12\"");
    says("\"\\u\0αβγδ\"", "\\u{0}αβγ");
}

#[test]
fn lone_surrogates() {
    let first = "is the first half of a character, and its second half is not after it";
    let second = "is the second half of a character, and its first half is not before it";
    for after in ["", "x", "\\n", "\\u0041", "\\uD800", "\\uE000", "\\\\uDC00"] {
        for (half, message) in [("D83D", first), ("DBFF", first), ("DC00", second)] {
            let message = format!("`\\u{half}` {message}");
            says(format!("\"α\\u{half}{after}\""), 1, 3, &message);
        }
        let pair = format!("\"\\uD83D\\uDE00\\udfff{after}\"");
        says(pair, 1, 14, &format!("`\\uDFFF` {second}"));
    }
    says(r#""\uDC00\uZZZZ""#, 1, 2, &format!("`\\uDC00` {second}"));
    let digits = "`\\u` takes four hexadecimal digits, not `DE0\"`";
    says(r#""\uD83D\uDE0""#, 1, 8, digits);
}

#[test]
fn control_characters_in_texts() {
    for point in (0..0x20).filter(|&point| point != 10) {
        let written = match point {
            8 => "\\b".to_string(),
            9 => "\\t".to_string(),
            12 => "\\f".to_string(),
            13 => "\\r".to_string(),
            _ => format!("\\u{point:04x}"),
        };
        let message =
            format!("the control character U+{point:04X} is written `{written}` in a text");
        says(format!("[\"α{}\"]", char::from(point)), 1, 4, &message);
    }
}

#[test]
fn texts_without_their_closing_quote() {
    for rest in ["", "abc", "abc\\", "abc\\\"", "\\u00e", "\\ud83d\\u"] {
        let message = "this text has no closing quote";
        says(format!("[1,\n \"{rest}"), 2, 2, message);
        says(format!("{{\"a\":1,\n\n  \"{rest}"), 3, 3, message);
    }
    let line =
        "this text has no closing quote on its line; a line break in a text is written `\\n`";
    says("{\"a: 1,\n \"b\": 2}", 1, 2, line);
    says("{\"a: 1,\r\n \"b\": 2}", 1, 2, line);
}
