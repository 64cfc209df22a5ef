//! The lines that the program is to print, by the reference.

use crate::case::{Call, Case, Lent, Set};
use reference::{fnv1a, Answer};

/// What every byte of the output, and every number of the scratch, is before a call.
const BYTE: u8 = 165;
const NUMBER: u16 = 23_130;

/// All lines.
#[must_use]
pub fn stdout(cases: &[Case]) -> String {
    cases.iter().map(line).collect()
}

fn line(case: &Case) -> String {
    format!("{} -> {}\n", case.label, answered(&case.call))
}

fn answered(call: &Call) -> String {
    match call {
        Call::Fnv1a(bytes) => format!("{:08x}", fnv1a(bytes)),
        Call::BlockPayload(block, start) => {
            let payload = reference::block_payload(block, *start);
            format!("{}{}", payload.len(), hashed(payload))
        }
        Call::Pack(kind, payload, room) => {
            let mut out = vec![BYTE; *room];
            written(reference::pack(*kind, payload, &mut out), &out)
        }
        Call::Unpack(kind, stream, room) => {
            let mut out = vec![BYTE; *room];
            written(reference::unpack(*kind, stream, &mut out), &out)
        }
        Call::Unescape(text, room) => {
            let mut out = vec![BYTE; *room];
            written(reference::unescape(text, &mut out), &out)
        }
        Call::Evaluate(set, lent) => evaluated(set, *lent),
    }
}

fn hashed(bytes: &[u8]) -> String {
    format!("  bytes-fnv={:08x}", fnv1a(bytes))
}

/// The five fields, and the hash of the bytes that they count.
fn written(answer: Answer, out: &[u8]) -> String {
    format!("{answer}{}", hashed(&out[..answer.bytes]))
}

fn evaluated(set: &Set, lent: Lent) -> String {
    let (g, t, v) = (&set.grammar, &set.templates, &set.value);
    let mut out = vec![BYTE; lent.room];
    let mut scratch = vec![NUMBER; lent.numbers];
    let answer = reference::evaluate(g, t, v, lent.fuel, &mut out, &mut scratch);
    let rest = match out[answer.bytes..].iter().all(|&byte| byte == BYTE) {
        true => "kept",
        false => "changed",
    };
    let scratch = match scratch {
        all if all.iter().all(|&number| number == NUMBER) => "kept",
        all if all.iter().all(|&number| number == 0) => "zero",
        _ => "changed",
    };
    let evaluated = written(answer, &out);
    let checked = reference::check(g, t);
    format!("{evaluated}  rest {rest}  scratch {scratch}  check -> {checked}")
}
