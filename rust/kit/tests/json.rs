//! The JSON reader against one that is not ours: both read the same documents, and agree on each.

use kit::json::{parse, Form, Json, Key};
use std::io::Write;
use std::path::Path;
use std::process::{Command, Stdio};

/// How many documents are made.
const DOCUMENTS: usize = 3_000;

/// Numbers that look random, always the same.
struct Dice(u64);

impl Dice {
    fn below(&mut self, most: usize) -> usize {
        self.0 ^= self.0 << 13;
        self.0 ^= self.0 >> 7;
        self.0 ^= self.0 << 17;
        (self.0 >> 11) as usize % most
    }

    fn one_of<'a>(&mut self, of: &[&'a str]) -> &'a str {
        of[self.below(of.len())]
    }
}

const BLANKS: [&str; 8] = ["", "", "", "", " ", "\n", "\t", "\r\n"];

const NUMBERS: [&str; 9] = [
    "0",
    "-0",
    "7",
    "-12",
    "0.50",
    "1e5",
    "-3.25E-07",
    "123456789012345678901234567890",
    "1E+400",
];

const PIECES: [&str; 22] = [
    "a",
    "b",
    " ",
    "title",
    "/",
    "'",
    "α",
    "é",
    "\u{2028}",
    "\u{7F}",
    "\u{FEFF}",
    "😀",
    "\\\"",
    "\\\\",
    "\\/",
    "\\b",
    "\\f\\n",
    "\\r\\t",
    "\\u0000",
    "\\u03B1",
    "\\ud83D\\ude00",
    "\\uFFFF",
];

/// What a document is damaged with.
const DAMAGE: [&str; 40] = [
    "",
    "",
    "",
    ",",
    ":",
    "[",
    "]",
    "{",
    "}",
    "\"",
    "\\",
    "/",
    "'",
    "#",
    "0",
    "1",
    "-",
    "+",
    ".",
    "e",
    "E",
    "u",
    "D",
    " ",
    "\n",
    "\t",
    "\0",
    "\x0C",
    "\u{A0}",
    "\u{FEFF}",
    "NaN",
    "-Infinity",
    "true",
    "nul",
    "\\u",
    "\\uD800",
    "\\uDC00",
    "\\x",
    "1,",
    "\"a\":",
];

/// Documents on which readers are known to differ.
const PICKED: [&[u8]; 32] = [
    b"",
    b" ",
    b"\xEF\xBB\xBF{}",
    b"\xEF\xBB\xBF",
    b"\xFF\xFE[\0]\0",
    b"\"\xED\xA0\x80\"",
    b"\"\xC0\x80\"",
    b"\"\xF4\x90\x80\x80\"",
    b"\"\xF4\x8F\xBF\xBF\"",
    b"[1]\0",
    b"[1]\x0C",
    b"\"\x7F\"",
    b"\"\x1F\"",
    b"\"\\uD800\"",
    b"\"\\uDC00\\uD800\"",
    b"\"\\uD800\\uD800\\uDC00\"",
    b"\"\\uD83D\\uDE00\"",
    b"\"\\u00E\"",
    b"\"\\u 123\"",
    b"\"\\u+123\"",
    b"\"\\u0x12\"",
    b"\"\\U0041\"",
    b"NaN",
    b"Infinity",
    b"-Infinity",
    b"1.",
    b"-",
    b"\xD9\xA1",
    b"1\xD9\xA1",
    b"{\"a\":1,\"\\u0061\":2}",
    b"{\"a\":1,\"A\":2}",
    b"[[],[[]],{\"\":{\"\":{}}}]",
];

fn text(dice: &mut Dice) -> String {
    let pieces: String = (0..dice.below(4)).map(|_| dice.one_of(&PIECES)).collect();
    format!("\"{pieces}\"")
}

/// A value that is JSON, but that a key may stand twice.
fn value(dice: &mut Dice, deep: usize) -> String {
    let value = match dice.below(if deep == 0 { 4 } else { 8 }) {
        0 => dice.one_of(&["null", "true", "false"]).to_string(),
        1 => dice.one_of(&NUMBERS).to_string(),
        2 | 3 => text(dice),
        kind => {
            let item = |dice: &mut Dice| match kind {
                4 | 5 => value(dice, deep - 1),
                _ => spaced(dice, text) + ":" + &value(dice, deep - 1),
            };
            let items: Vec<_> = (0..dice.below(5)).map(|_| item(dice)).collect();
            let inside = items.join(",") + dice.one_of(&BLANKS);
            match kind {
                4 | 5 => format!("[{inside}]"),
                _ => format!("{{{inside}}}"),
            }
        }
    };
    spaced(dice, |_| value)
}

fn spaced(dice: &mut Dice, thing: impl FnOnce(&mut Dice) -> String) -> String {
    dice.one_of(&BLANKS).to_string() + &thing(dice) + dice.one_of(&BLANKS)
}

/// A document with a few bytes taken out or put in.
fn damaged(dice: &mut Dice, document: &str) -> Vec<u8> {
    let mut bytes = document.as_bytes().to_vec();
    for _ in 0..1 + dice.below(2) {
        let start = dice.below(bytes.len() + 1);
        let end = bytes.len().min(start + dice.below(3));
        bytes.splice(start..end, dice.one_of(&DAMAGE).bytes());
    }
    bytes
}

fn documents() -> Vec<Vec<u8>> {
    let mut dice = Dice(0x5EED);
    let made = (0..DOCUMENTS).map(|number| {
        let document = value(&mut dice, 4);
        match number % 3 {
            0 => document.into_bytes(),
            _ => damaged(&mut dice, &document),
        }
    });
    let picked = PICKED.iter().map(|document| document.to_vec());
    picked.chain(made).collect()
}

fn hexadecimal(bytes: &[u8]) -> String {
    bytes.iter().map(|byte| format!("{byte:02x}")).collect()
}

fn shown_text(text: &str) -> String {
    format!("\"{}\"", hexadecimal(text.as_bytes()))
}

/// A value as `json_verdicts.py` shows it.
fn shown(value: &Json) -> String {
    match &value.form {
        Form::Null | Form::Flag(_) => value.called().to_string(),
        Form::Number(number) => number.clone(),
        Form::Text(text) => shown_text(text),
        Form::List(items) => {
            let items: Vec<_> = items.iter().map(shown).collect();
            format!("[{}]", items.join(","))
        }
        Form::Object(members) => {
            let member = |(key, it): &(Key, Json)| shown_text(&key.word) + ":" + &shown(it);
            let members: Vec<_> = members.iter().map(member).collect();
            format!("{{{}}}", members.join(","))
        }
    }
}

/// What Python's reader says of each document.
fn verdicts(documents: &[Vec<u8>]) -> Vec<String> {
    let lines: Vec<_> = documents.iter().map(|it| hexadecimal(it)).collect();
    let mut reader = Command::new("python3")
        .arg(Path::new(env!("CARGO_MANIFEST_DIR")).join("tests/json_verdicts.py"))
        .stdin(Stdio::piped())
        .stdout(Stdio::piped())
        .spawn()
        .expect("python3, whose JSON reader reads the documents, can be run");
    reader
        .stdin
        .take()
        .expect("its input")
        .write_all(lines.join("\n").as_bytes())
        .expect("written");
    let output = reader.wait_with_output().expect("its end");
    assert!(output.status.success());
    let output = String::from_utf8(output.stdout).expect("UTF-8");
    output.lines().map(str::to_string).collect()
}

#[test]
fn both_json_readers_agree_on_each_document() {
    let documents = documents();
    let verdicts = verdicts(&documents);
    assert_eq!(verdicts.len(), documents.len());
    for (document, verdict) in documents.iter().zip(&verdicts) {
        let (ours, why) = match parse(document) {
            Ok(value) => (shown(&value), String::new()),
            Err(mistake) => ("-".to_string(), mistake.to_string()),
        };
        let document = String::from_utf8_lossy(document);
        assert_eq!(ours, *verdict, "{document:?}: {why}");
    }
    let valid = verdicts.iter().filter(|verdict| *verdict != "-").count();
    assert!(valid > DOCUMENTS / 4, "only {valid} documents are JSON");
    assert!(valid < DOCUMENTS * 3 / 4, "{valid} documents are JSON");
}
