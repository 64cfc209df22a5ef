//! Values are read as they are written.

use super::super::{parse, quoted, Form, Json, Key};
use super::{at, form};

#[track_caller]
fn refused(json: &str) {
    assert!(parse(json.as_bytes()).is_err(), "{json}");
}

/// A value without its places.
fn plain(value: &Json) -> String {
    match &value.form {
        Form::Number(number) => number.clone(),
        Form::Text(text) => quoted(text),
        Form::List(items) => {
            let items: Vec<_> = items.iter().map(plain).collect();
            format!("[{}]", items.join(","))
        }
        Form::Object(members) => {
            let member = |(key, value): &(Key, Json)| quoted(&key.word) + ":" + &plain(value);
            let members: Vec<_> = members.iter().map(member).collect();
            format!("{{{}}}", members.join(","))
        }
        _ => value.called().to_string(),
    }
}

#[test]
fn any_value_at_the_top() {
    for json in [
        "null",
        "true",
        "false",
        "0",
        "\"\"",
        "[]",
        "{}",
        "[[],{},[[]]]",
        r#"{"a":[1,2,{"b":null}],"":"c"}"#,
    ] {
        assert_eq!(plain(&parse(json.as_bytes()).expect(json)), json);
        let spaced = format!(" \t\r\n{json}\n\r\t ");
        assert_eq!(plain(&parse(spaced.as_bytes()).expect(json)), json);
    }
}

#[test]
fn blanks_between_all_parts() {
    let value = parse(b"\t{ \"a\"\n:\r[ 1 , 2 ] ,\n\n\"b\" : { } }\r\n").expect("a value");
    assert_eq!(plain(&value), r#"{"a":[1,2],"b":{}}"#);
}

#[test]
fn each_value_and_key_has_its_place() {
    let value =
        parse("{\n  \"αβ\": [1, \"γ\", null],\n  \"b\": true }".as_bytes()).expect("a value");
    assert_eq!(value.at, at(1, 1));
    let Form::Object(members) = value.form else {
        panic!("an object");
    };
    assert_eq!(members[0].0.at, at(2, 3));
    assert_eq!(members[0].1.at, at(2, 9));
    let Form::List(items) = &members[0].1.form else {
        panic!("an array");
    };
    let places: Vec<_> = items.iter().map(|item| item.at).collect();
    assert_eq!(places, [at(2, 10), at(2, 13), at(2, 18)]);
    assert_eq!(members[1].0.at, at(3, 3));
    assert_eq!(members[1].1.at, at(3, 8));
}

#[test]
fn what_a_message_calls_each() {
    let values = [
        ("null", "null"),
        ("true", "true"),
        ("false", "false"),
        ("1", "a number"),
        ("\"1\"", "a text"),
        ("[]", "an array"),
        ("{}", "an object"),
    ];
    for (json, called) in values {
        assert_eq!(parse(json.as_bytes()).expect(json).called(), called);
    }
}

#[test]
fn numbers_are_kept_as_they_are_written() {
    let numbers = "0 -0 7 10 -120 0.0 -0.50 3.25 1e5 1E5 1e+05 1e-0 0e0 0E-00 -12.50e+300 1e999999";
    for number in numbers.split(' ') {
        assert_eq!(form(number), Form::Number(number.to_string()));
        let list = format!("[{number},{{\"a\":{number}}}]");
        assert_eq!(plain(&parse(list.as_bytes()).expect(number)), list);
    }
    let long = "9".repeat(100_000);
    assert_eq!(form(&long), Form::Number(long.clone()));
}

#[test]
fn what_is_almost_a_number() {
    let words =
        "- + +1 -+1 --1 00 01 -01 007 .5 -.5 1. -1. 1.e5 1e 1e+ 1E- 1e5. 1e5.0 1.2.3 1e5e5 \
                 0x1F 0X0 0b1 0o7 1_000 1a 1f 1n 1-2 1+2 1/2 ½ ١ 1١ NaN Infinity -Infinity . e5";
    for number in words.split(' ').chain(["- 1", "1 2", "0 1"]) {
        refused(number);
        refused(&format!("[{number}]"));
        refused(&format!("{{\"a\": {number}}}"));
    }
}

#[test]
fn only_four_characters_are_blanks() {
    for character in ('\0'..='\u{3000}').chain(['\u{FEFF}']) {
        let blank = matches!(character, ' ' | '\t' | '\n' | '\r');
        let json = format!("[1{character}]");
        let digit = character.is_ascii_digit();
        assert_eq!(
            parse(json.as_bytes()).is_ok(),
            blank || digit,
            "{character:?}"
        );
        assert_eq!(
            parse(format!("1{character}").as_bytes()).is_ok(),
            blank || digit
        );
        assert_eq!(parse(format!("[] {character}").as_bytes()).is_ok(), blank);
    }
}
