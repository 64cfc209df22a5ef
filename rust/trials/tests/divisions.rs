//! No fetch of a record divides, or takes a remainder, by anything but a power of two: the Rattle
//! sources are read, and every other divisor in their code must stand on a list of divisions that
//! fetch nothing. What is no code may divide as it likes: comments, `ghost use`, contracts.

use std::collections::BTreeMap;
use std::fs;
use std::path::{Path, PathBuf};

/// The divisions that are no fetch, each once: the file, the line's code, and the reason.
const NO_FETCH: [(&str, &str, &str); 3] = [
    (
        "crates/entities/src/escape.rt",
        "if out.len() / LONGEST < t.left {",
        "bytes of output: an entity has at most six",
    ),
    (
        "crates/stream/src/pack.rt",
        "let blocks = (payload.len() + 503) / 504;",
        "packing: the blocks that a payload fills",
    ),
    (
        "crates/stream/src/pack.rt",
        "let bytes = 512 * ((payload.len() + 503) / 504);",
        "packing: the bytes of these blocks",
    ),
];

/// What to do about a division that is not on the list.
const ADVICE: &str = "divides by no power of two. Shift or multiply instead; if no record is \
                      fetched here, write the line and the reason on NO_FETCH";

/// Signs of two characters. Every other sign is read as one.
const SIGNS: [&str; 4] = ["/=", "%=", "::", ".."];

/// The texts of the sources, by their paths from the repository's root.
type Sources = BTreeMap<String, String>;

struct Token<'a> {
    text: &'a str,
    line: usize,
}

struct Division {
    line: usize,
    /// The lines from the operator to the divisor.
    code: String,
    by_power: bool,
}

#[test]
fn only_powers_of_two_divide_where_records_are_fetched() {
    let mut unmet = NO_FETCH.to_vec();
    let (mut powers, mut wrong) = (0, Vec::new());
    for (file, source) in &sources() {
        for division in divisions(source) {
            let (line, code) = (division.line, division.code);
            let is_listed = |entry: &(&str, &str, &str)| entry.0 == file && entry.1 == code;
            if division.by_power {
                powers += 1;
            } else if let Some(at) = unmet.iter().position(is_listed) {
                unmet.remove(at);
            } else {
                wrong.push(format!("{file}:{line}: `{code}` {ADVICE}"));
            }
        }
    }
    for (file, code, _) in unmet {
        wrong.push(format!("{file}: `{code}` is gone: take it off NO_FETCH"));
    }
    assert!(wrong.is_empty(), "\n{}\n", wrong.join("\n"));
    assert!(powers >= 50, "only {powers} divisions by powers of two?");
}

#[test]
fn every_crate_is_read() {
    let sources = sources();
    let list = fs::read_to_string(root().join("crates.txt")).expect("crates.txt");
    let names = list.lines().filter(|line| !line.starts_with('#'));
    let names: Vec<&str> = names
        .filter_map(|line| line.split([':', ' ']).next())
        .collect();
    assert!(names.contains(&"stream"));
    for name in names.into_iter().filter(|name| !name.is_empty()) {
        let folder = format!("crates/{name}/src/");
        let read = sources.keys().any(|file| file.starts_with(&folder));
        assert!(read, "no source of {name} is read");
    }
}

#[test]
fn other_divisors_are_found() {
    for (source, code) in [
        ("fn f() { i / 63 }", "fn f() { i / 63 }"),
        ("let a =\n    b % n;", "b % n;"),
        ("let a = b /\n    // six\n    6;", "let a = b / // six 6;"),
        ("let a = b\n    / 6;", "/ 6;"),
        ("a /= 3;", "a /= 3;"),
        ("a %= 2 + 1;", "a %= 2 + 1;"),
        ("a / 0", "a / 0"),
        ("a / (64)", "a / (64)"),
        ("a / 64.min(b)", "a / 64.min(b)"),
        ("a / LAST", "a / LAST"),
        ("let _64 = 63;\na / _64", "a / _64"),
        ("use crate::deep::N;\na / N", "a / N"),
        ("fn f() { const n: u8 = 8; }\na / n", "a / n"),
        ("const N: usize = 63;\na / N", "a / N"),
        ("const N: usize = 8 + 1;\na / N", "a / N"),
        ("const N: u8 = 8; const N: u8 = 9;\na / N", "a / N"),
        ("f(\"\\\"//\", b'\"', a / 7)", "f(\"\\\"//\", b'\"', a / 7)"),
        (
            "fn f() {\nif requires { a / 5 } }",
            "if requires { a / 5 } }",
        ),
        ("fn f()\n    ensures { { a / 5 } }\n{ b / 5 }", "{ b / 5 }"),
        (
            "fn f()\n    ensures low { { a / 5 } }\n{ b / 5 }",
            "{ b / 5 }",
        ),
    ] {
        assert_eq!(others(source), [code], "{source}");
    }
    assert_eq!(others("a / 3 % 5").len(), 2);
}

#[test]
fn powers_of_two_and_what_is_no_code_are_passed_over() {
    for source in [
        "a / 512",
        "a % 0x200",
        "a / 65_536u32 as u64",
        "&a[b / 2..c]",
        "a /= 8;",
        "{ a %= 8 }",
        "const N: usize = 64;\na / N * 63",
        "a // half a / 63",
        "ghost use Nat.{_/_,\n    _%_};",
        "fn f<'a>(b: &'a [u8; 4])\nrequires { a\n/ 63 }\nensures { λ r. { r } % 3 }\n{ 1 }",
        "fn f()\nrequires low { a / 63 }\nensures* lent { { r } % 3 }\nensures { b / 5 }\n{ 1 }",
        "struct S { a: u8, ghost low: { a / 3 < 2 } }\nimpl S {\nghost view = { λ s. s % 5 }; }",
        "f(\"a / 63\", b\"% 5\", '/', b'%')",
    ] {
        assert_eq!(others(source), [""; 0], "{source}");
    }
}

/// The divisions of a small source that are not by a power of two.
fn others(source: &str) -> Vec<String> {
    let mut found = divisions(source);
    found.retain(|division| !division.by_power);
    found.into_iter().map(|division| division.code).collect()
}

fn root() -> PathBuf {
    Path::new(env!("CARGO_MANIFEST_DIR")).join("../..")
}

/// All Rattle sources below `crates`, but for the copies that `rt` keeps in `out`.
fn sources() -> Sources {
    let mut sources = Sources::new();
    let mut folders = vec!["crates".to_string()];
    while let Some(folder) = folders.pop() {
        for entry in fs::read_dir(root().join(&folder)).expect("a folder") {
            let entry = entry.expect("an entry");
            let path = format!("{folder}/{}", entry.file_name().to_string_lossy());
            if entry.file_name() == "out" {
                continue;
            } else if entry.path().is_dir() {
                folders.push(path);
            } else if path.ends_with(".rt") {
                let text = fs::read_to_string(entry.path()).expect("a source");
                sources.insert(path, text);
            }
        }
    }
    sources
}

/// Every division and remainder in the code of a source.
fn divisions(source: &str) -> Vec<Division> {
    let code = code(source);
    let is_division = |&at: &usize| matches!(code[at].text, "/" | "%" | "/=" | "%=");
    let division = |at: usize| {
        let line = code[at].line;
        let last = code.get(at + 1).map_or(line, |divisor| divisor.line);
        let lines = source.lines().skip(line - 1).take(last + 1 - line);
        Division {
            line,
            code: lines.map(str::trim).collect::<Vec<_>>().join(" "),
            by_power: is_by_power(&code, at),
        }
    };
    (0..code.len()).filter(is_division).map(division).collect()
}

/// Whether an operator has a number or a constant on its right, and nothing that binds closer, and
/// this is a power of two. An assignment takes all that follows.
fn is_by_power(code: &[Token], operator: usize) -> bool {
    let text = |at: usize| code.get(at).map_or("", |token| token.text);
    let (divisor, next) = (text(operator + 1), text(operator + 2));
    let is_whole = match text(operator) {
        "/" | "%" => !matches!(next, "." | "::" | "(" | "["),
        _ => matches!(next, ";" | "," | "}"),
    };
    let value = number(divisor).or_else(|| constant(code, divisor));
    is_whole && value.is_some_and(u128::is_power_of_two)
}

/// The value of a literal: decimal or not, with `_` and a type or without.
fn number(text: &str) -> Option<u128> {
    let is_literal = text.starts_with(|first: char| first.is_ascii_digit());
    let text = text.replace('_', "");
    let (digits, radix) = match text.get(..2) {
        Some("0x") => (&text[2..], 16),
        Some("0o") => (&text[2..], 8),
        Some("0b") => (&text[2..], 2),
        _ => (&text[..], 10),
    };
    let digits = digits.split(['u', 'i']).next()?;
    u128::from_str_radix(digits, radix)
        .ok()
        .filter(|_| is_literal)
}

/// The value of a constant that the same file declares, once and as a literal. Its name is in capitals,
/// as no parameter's is.
fn constant(code: &[Token], name: &str) -> Option<u128> {
    let is_capital = |c: char| c.is_ascii_uppercase() || c.is_ascii_digit() || c == '_';
    let texts: Vec<&str> = code.iter().map(|token| token.text).collect();
    let mut declarations = texts
        .windows(7)
        .filter(|texts| texts[..2] == ["const", name]);
    match (declarations.next()?, declarations.next()) {
        ([_, _, ":", _, "=", value, ";"], None) if name.chars().all(is_capital) => number(value),
        _ => None,
    }
}

/// The tokens without what only a proof reads: `ghost` items, and contracts, which stand between `fn`
/// and the body.
fn code(source: &str) -> Vec<Token<'_>> {
    let mut code = Vec::new();
    let mut in_head = false;
    let mut rest = tokens(source).into_iter().peekable();
    while let Some(token) = rest.next() {
        let next = rest.peek().map_or("", |token| token.text);
        match token.text {
            "ghost" if next == "use" => assert!(rest.any(|token| token.text == ";")),
            "ghost" => skip_block(&mut rest),
            "requires" | "ensures" if in_head => skip_block(&mut rest),
            text => {
                in_head = text == "fn" || in_head && text != "{";
                code.push(token);
            }
        }
    }
    code
}

/// Skips a name and what else stands before an opening brace, and past the one that closes it.
fn skip_block<'a>(rest: &mut impl Iterator<Item = Token<'a>>) {
    let mut depth = 0;
    let is_end = |token: Token| {
        depth += i32::from(token.text == "{") - i32::from(token.text == "}");
        token.text == "}" && depth == 0
    };
    assert!(rest.any(is_end), "a contract ends");
}

/// All but spaces and comments, each with its line.
fn tokens(source: &str) -> Vec<Token<'_>> {
    let mut tokens = Vec::new();
    let (mut rest, mut line) = (source, 1);
    while !rest.is_empty() {
        let text;
        (text, rest) = rest.split_at(first_length(rest));
        if !text.trim().is_empty() && !text.starts_with("//") {
            tokens.push(Token { text, line });
        }
        line += text.matches('\n').count();
    }
    tokens
}

/// The length of what comes first: a comment, a string, a character, a word, a sign or a space.
fn first_length(rest: &str) -> usize {
    let is_word = |c: char| c.is_alphanumeric() || c == '_';
    let mut chars = rest.chars();
    let first = chars.next().expect("a character");
    let is_quoted = match first {
        '"' => true,
        '\'' => chars.next() == Some('\\') || chars.next() == Some('\''),
        _ => false,
    };
    if rest.starts_with("//") {
        rest.find('\n').unwrap_or(rest.len())
    } else if is_quoted {
        quoted_length(rest, first)
    } else if is_word(first) {
        rest.find(|c| !is_word(c)).unwrap_or(rest.len())
    } else if SIGNS.iter().any(|sign| rest.starts_with(sign)) {
        2
    } else {
        first.len_utf8()
    }
}

/// The length of a string or character with its quotes; a backslash takes away the next one's meaning.
fn quoted_length(rest: &str, quote: char) -> usize {
    let mut is_escaped = false;
    let is_end = |&(_, c): &(usize, char)| {
        let is_end = c == quote && !is_escaped;
        is_escaped = c == '\\' && !is_escaped;
        is_end
    };
    let end = rest.char_indices().skip(1).find(is_end);
    end.expect("a closing quote").0 + 1
}
