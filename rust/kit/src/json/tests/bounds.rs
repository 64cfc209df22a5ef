//! Files that are large, deep or random.

use super::super::{parse, Form};
use super::{at, form};

/// Runs on a thread with a small stack.
fn on_a_small_stack(run: impl FnOnce() + Send + 'static) {
    std::thread::Builder::new()
        .stack_size(512 * 1024)
        .spawn(run)
        .expect("a thread")
        .join()
        .expect("no panic");
}

fn nested(open: &str, close: &str, deep: usize) -> String {
    open.repeat(deep) + "1" + &close.repeat(deep)
}

#[test]
fn nesting_is_bounded() {
    on_a_small_stack(|| {
        for (open, close) in [("[", "]"), ("{\"a\":", "}"), (" [ 0, ", " , 0 ] ")] {
            assert!(parse(nested(open, close, 300).as_bytes()).is_ok());
            let mistake = parse(nested(open, close, 301).as_bytes()).expect_err("too deep");
            assert_eq!(mistake.message, "this nests over 300 deep");
            let opener = open.find(['[', '{']).expect("an opener");
            assert_eq!(mistake.at, at(1, open.len() * 300 + opener + 1));
        }
        let empty = "[".repeat(301) + &"]".repeat(301);
        assert_eq!(
            parse(empty.as_bytes()).expect_err("too deep").at,
            at(1, 301)
        );
        assert!(parse(&empty.as_bytes()[1..601]).is_ok());
    });
}

#[test]
fn a_million_openers_are_refused() {
    on_a_small_stack(|| {
        for open in ["[", "{\"a\":", "[{\"\":"] {
            let mistake = parse(open.repeat(1_000_000).as_bytes()).expect_err("too deep");
            assert_eq!(mistake.message, "this nests over 300 deep");
        }
    });
}

/// Siblings are not nested.
#[test]
fn many_values_side_by_side() {
    let lists = format!("[{}[]]", "[[]],\n".repeat(200_000));
    let Form::List(items) = form(&lists) else {
        panic!("an array");
    };
    assert_eq!(items.len(), 200_001);
    assert_eq!(items[200_000].at, at(200_001, 1));
}

#[test]
fn many_keys_in_one_object() {
    let members: Vec<_> = (0..300_000).map(|key| format!("\"{key}\":0")).collect();
    let json = format!("{{{}}}", members.join(",\n"));
    let Form::Object(found) = form(&json) else {
        panic!("an object");
    };
    assert_eq!(found.len(), 300_000);
    let again = json.replace('}', ",\"299999\":1}");
    let mistake = parse(again.as_bytes()).expect_err("a key twice");
    assert!(mistake.message.ends_with("at line 300000"), "{mistake}");
}

/// Small numbers that look random, always the same.
struct Dice(u64);

impl Dice {
    fn below(&mut self, most: usize) -> usize {
        self.0 ^= self.0 << 13;
        self.0 ^= self.0 >> 7;
        self.0 ^= self.0 << 17;
        (self.0 >> 11) as usize % most
    }
}

/// Every answer has a place within the bytes, and a short message.
fn answers(bytes: &[u8]) {
    if let Err(mistake) = parse(bytes) {
        let lines = bytes.iter().filter(|&&byte| byte == b'\n').count() + 1;
        assert!((1..=lines).contains(&mistake.at.line), "{bytes:?}");
        assert!(
            (1..=bytes.len() + 1).contains(&mistake.at.column),
            "{bytes:?}"
        );
        assert!(mistake.message.chars().count() < 200, "{mistake}");
        assert!(!mistake.message.contains(char::is_control), "{mistake}");
    }
}

#[test]
fn random_bytes_have_an_answer() {
    let mut dice = Dice(0x5EED);
    let signs: Vec<char> = "[]{}:,\"\\/ \n\r\t01-+.eEuabD8C'#*\0\u{7F}α😀\u{FEFF}\u{A0}"
        .chars()
        .collect();
    for _ in 0..20_000 {
        let length = dice.below(40);
        let bytes: Vec<u8> = (0..length).map(|_| dice.below(256) as u8).collect();
        answers(&bytes);
        let text: String = (0..length)
            .map(|_| signs[dice.below(signs.len())])
            .collect();
        answers(text.as_bytes());
        answers(format!("[\"a\", {{\"b\": {text}").as_bytes());
        answers(format!("{{\"{text}").as_bytes());
    }
}
