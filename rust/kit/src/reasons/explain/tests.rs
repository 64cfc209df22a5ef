//! What is said of small sets that are refused, each in one way.

use super::*;
use crate::Streams;

const SMALL: &str = r#"class c 1 to 4 { 'a'-'z' } production p of n = "[" m* "]" production q of m = "<" c ">"
    type t = text c type l = list t
    template a (x: l) of n = build p (sequence (for y in x do build q (place y)))
    value ["ab", "cd"]"#;

fn streams(from: &str, to: &str) -> Streams {
    crate::assemble(&SMALL.replacen(from, to, 1)).expect("streams")
}

fn set(streams: &Streams) -> Set<'_> {
    Set {
        grammar: &streams.grammar,
        templates: &streams.templates,
        value: &streams.value,
    }
}

fn explained(from: &str, to: &str, lent: Lent) -> String {
    let explanation = explain(set(&streams(from, to)), lent);
    assert!(!explanation.finished);
    explanation.text
}

#[test]
fn a_finished_text() {
    let explanation = explain(set(&streams("", "")), Lent::default());
    assert!(explanation.finished);
    assert_eq!(
        explanation.text,
        "check: accepted\nevaluate: finished, 7 steps, a text of 10 bytes\n"
    );
}

#[test]
fn a_value_of_another_type() {
    let text = explained("\"cd\"", "\"CD\"", Lent::default());
    assert!(text.starts_with(
        "check: accepted\nevaluate: the value, record 3: the value isn't of its declared type (refusal 8)\n"
    ));
    assert!(text.contains("\n    \"A lexeme of a class is well-formed UTF-8"));
    assert!(
        text.contains(">         3    text of 2 bytes, size 2\n          4      \"CD\"\n"),
        "{text}"
    );
}

#[test]
fn a_node_that_does_not_suit() {
    let text = explained("place y", "literal \"AB\"", Lent::default());
    assert!(
        text.contains("check: the templates, record 9: a typing rule fails"),
        "{text}"
    );
    assert!(text.contains("\n    \"A lexeme of a class is well-formed UTF-8"));
    assert_eq!(text.matches("\n    \"").count(), 1, "{text}");
    assert!(
        text.contains(">         9            literal of 2 bytes, size 2\n"),
        "{text}"
    );
    assert!(
        text.ends_with(
            "  = class 0 is asked for here, by element 2 of production 1 (child 1): 1 to 4 characters of U+0061-U+007A\n  \
             = this text has 2 characters, and number 1, U+0041 ('A'), is in no range\n\
             evaluate: the same refusal\n"
        ),
        "{text}"
    );
}

#[test]
fn limits_of_the_walk() {
    let fuel = explained(
        "",
        "",
        Lent {
            fuel: 6,
            ..Lent::default()
        },
    );
    assert!(fuel.contains("(refusal 10)"));
    assert!(fuel.ends_with("took 6 steps with fuel 6 and wrote 6 of 65536 bytes; the text so far ends with \"[<ab><\"\n  = fuel of 7 would do\n"));
    let room = explained(
        "",
        "",
        Lent {
            output: 9,
            ..Lent::default()
        },
    );
    assert!(room.contains("the templates, record 4") && room.contains("(refusal 12)"));
    assert!(room.ends_with("  = an output of 10 bytes would do\n"));
    let scratch = explained(
        "",
        "",
        Lent {
            scratch: 4_799,
            ..Lent::default()
        },
    );
    assert!(scratch.ends_with("  = 4799 numbers are lent\n"));
}

#[test]
fn a_separator_without_room() {
    let lent = Lent {
        output: 6,
        ..Lent::default()
    };
    let text = explained("m*", "m*(\", \")", lent);
    assert!(
        text.contains("evaluate: the templates, record 5: a keyword, lexeme or separator passes the end of the output (refusal 12)\n"),
        "{text}"
    );
    assert!(text.contains("that is 12 with the sequence's place"));
    assert!(text.contains(">         5      sequence of 1 item, size 6\n"));
    assert!(
        text.ends_with(
            "  = the separator \", \" has 2 bytes, and 1 is left\n  = the way there:\n      template 0\n      \
         for (variable 1), item 2 of 2\n  = the walk took 5 steps with fuel 1000000 and wrote 5 of 6 bytes; \
         the text so far ends with \"[<ab>\"\n  = an output of 12 bytes would do\n"
        ),
        "{text}"
    );
}

#[test]
fn damage_and_lengths() {
    let mut damaged = streams("", "");
    damaged.grammar[7] ^= 1;
    let text = explain(set(&damaged), Lent::default()).text;
    assert!(
        text.contains("grammar.blk, block 0: its check is 0x"),
        "{text}"
    );
    let mut short = streams("", "");
    short.value.truncate(100);
    let text = explain(set(&short), Lent::default()).text;
    assert!(
        text.contains("evaluate: the value: the length is zero"),
        "{text}"
    );
    assert!(text.contains("value.blk has 100 bytes"));
}

#[test]
fn a_broken_layout_is_found_by_the_kit() {
    let mut payload = [0; feed::PAYLOAD];
    let mut broken = streams("", "");
    assert_eq!(feed::unpack(3, &broken.value, &mut payload).number, 0);
    payload[8 + 4] = 7;
    assert_eq!(feed::pack(3, &payload, &mut broken.value).number, 0);
    let text = explain(set(&broken), Lent::default()).text;
    assert!(
        text.contains("the kit finds odd at record 1: it takes 2 records"),
        "{text}"
    );
}

/// Each refusal of 4 to 8 is told more closely, in whatever stream a byte is another one.
#[test]
fn every_changed_byte_is_explained() {
    let folder = std::path::Path::new(env!("CARGO_MANIFEST_DIR")).join("../../examples");
    let changes: [fn(u8) -> u8; 3] = [|b| b ^ 1, |b| b.wrapping_add(7), |b| b ^ 0x80];
    let mut refused = [0; 10];
    for name in ["harbour", "podcast", "media"] {
        let file = folder.join(name).join("feed.txt");
        let description = std::fs::read_to_string(file).expect("a description");
        let streams = crate::assemble(&description).expect("streams");
        for kind in [Kind::Grammar, Kind::Templates, Kind::Value] {
            let mut payload =
                vec![0; set(&streams).bytes(kind).len() / feed::BLOCK * feed::PAYLOAD];
            let stream = set(&streams).bytes(kind);
            assert_eq!(feed::unpack(kind.byte(), stream, &mut payload).number, 0);
            for index in 0..payload.len() {
                let byte = payload[index];
                for change in changes {
                    payload[index] = change(byte);
                    refused[explained_number(&streams, kind, &payload)] += 1;
                }
                payload[index] = byte;
            }
        }
    }
    assert!(refused[5..9].iter().all(|&count| count > 0), "{refused:?}");
}

/// The refusal of a set with another payload of one of its streams, which is told more closely.
fn explained_number(streams: &Streams, kind: Kind, payload: &[u8]) -> usize {
    let mut changed = vec![0; payload.len() / feed::PAYLOAD * feed::BLOCK];
    assert_eq!(feed::pack(kind.byte(), payload, &mut changed).number, 0);
    let mut set = set(streams);
    match kind {
        Kind::Grammar => set.grammar = &changed,
        Kind::Templates => set.templates = &changed,
        Kind::Value => set.value = &changed,
    }
    let lent = Lent {
        output: 8_192,
        ..Lent::default()
    };
    let text = explain(set, lent).text;
    let number = text.split("(refusal ").nth(1);
    let number = number.and_then(|rest| rest.split(')').next()?.parse().ok());
    let number = number.unwrap_or(0);
    let said = text.lines().any(|line| line.starts_with("  = "));
    assert!(said || !(4..9).contains(&number), "{text}");
    number
}
