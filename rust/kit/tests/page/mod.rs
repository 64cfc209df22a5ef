//! Reads the page of the streams' format: its tables, its fenced parts, and the numbers and bytes in them.

pub mod example;

use std::fs;
use std::path::Path;

/// A file of the repository.
pub fn read(name: &str) -> Vec<u8> {
    let path = Path::new(env!("CARGO_MANIFEST_DIR"))
        .join("../..")
        .join(name);
    fs::read(&path).unwrap_or_else(|error| panic!("{}: {error}", path.display()))
}

fn page() -> String {
    String::from_utf8(read("docs/FORMAT.md")).expect("UTF-8")
}

/// The cells of the first table with this header that stands below a heading.
pub fn table(heading: &str, header: &str) -> Vec<Vec<String>> {
    let page = page();
    let mut lines = page.lines().skip_while(|line| *line != heading);
    assert!(lines.any(|line| line.starts_with(header)), "{heading}");
    let rows = lines.skip(1).take_while(|line| line.starts_with('|'));
    let cell = |text: &str| text.trim().trim_matches('`').to_string();
    let cells = |line: &str| line.trim_matches('|').split('|').map(cell).collect();
    let rows: Vec<_> = rows.map(cells).collect();
    assert!(!rows.is_empty(), "{heading}");
    rows
}

/// The lines of the fenced part that begins with a title.
pub fn fenced(title: &str) -> Vec<String> {
    let (page, fence) = (page(), format!("```\n{title}\n"));
    let (_, from) = page.split_once(&fence).expect(title);
    let (lines, _) = from.split_once("\n```").expect("the fence's end");
    lines.lines().map(str::to_string).collect()
}

fn is_hex(word: &str) -> bool {
    word.len() == 2 && word.bytes().all(|byte| byte.is_ascii_hexdigit())
}

/// The bytes that a text begins with, and the words after them; `(n times)` repeats all of them.
pub fn bytes(text: &str) -> (Vec<u8>, String) {
    let mut words = text.split_whitespace().peekable();
    let mut bytes = Vec::new();
    while let Some(word) = words.next_if(|word| is_hex(word)) {
        bytes.push(u8::from_str_radix(word, 16).expect("hexadecimal digits"));
    }
    if let Some(times) = words.next_if(|word| word.starts_with('(')) {
        bytes = bytes.repeat(number(&times[1..]));
        assert_eq!(words.next(), Some("times)"));
    }
    (bytes, words.collect::<Vec<_>>().join(" "))
}

/// A number, as the page writes it.
pub fn number(text: &str) -> usize {
    let digits = text.replace(',', "");
    digits.parse().unwrap_or_else(|_| panic!("{text}"))
}

/// A check, as the page writes it.
pub fn check(text: &str) -> u32 {
    let digits = text.strip_prefix("0x").expect("0x");
    u32::from_str_radix(digits, 16).expect("hexadecimal digits")
}
