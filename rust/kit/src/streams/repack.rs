//! Packs a stream anew whose checks are of the old kind.
//!
//! A stream of several blocks that was packed before request b is refused since: its checks each start
//! from the same number. Here it gets the checks of now, by the proved packing, and nothing else of it
//! changes. Only a stream all of whose blocks are right, by the old checks or by those of now, is taken:
//! what is damaged stays refused.

use crate::streams::checks::Checks;
use crate::streams::record::{packed, Found, Kind};

/// What becomes of a stream.
#[derive(Debug, PartialEq, Eq)]
pub enum Repacked {
    /// Its checks are those of now already.
    Kept,
    /// Its blocks with the checks of now.
    Anew(Vec<u8>),
}

/// Packs a stream anew, unless its checks are those of now.
///
/// # Errors
/// In words, if it is damaged: a line for each kind of checks.
pub fn repack(bytes: &[u8], expected: Option<Kind>) -> Result<Repacked, String> {
    let now = Found::read(bytes, expected);
    let old = Found::read_by(bytes, expected, Checks::Old);
    if let Some(wrong) = &now.length {
        return Err(format!("the length: {wrong}\n"));
    }
    match now.kind {
        Some(_) if now.damaged() == 0 => Ok(Repacked::Kept),
        Some(kind) if old.damaged() == 0 => match packed(kind, &old.records) {
            Ok(blocks) => Ok(Repacked::Anew(blocks)),
            Err(refusal) => Err(format!("{refusal}\n")),
        },
        _ => Err(format!(
            "{}{}",
            first_wrong("by the checks of now", &now),
            first_wrong("by the old ones", &old)
        )),
    }
}

/// The first damaged block, and what is wrong with it.
fn first_wrong(by: &str, found: &Found) -> String {
    let damaged = found.damage.iter().enumerate();
    let first = damaged.into_iter().find(|(_, wrong)| !wrong.is_empty());
    first
        .map(|(number, wrong)| format!("{by}, block {number}: {}\n", wrong.join("; ")))
        .unwrap_or_default()
}

#[cfg(test)]
mod tests {
    use super::*;
    use crate::streams::checks::with_old_checks;
    use feed::{BLOCK, PAYLOAD};

    fn stream(count: usize, byte: u8) -> Vec<u8> {
        let mut blocks = vec![0; count * BLOCK];
        let payload = vec![byte; count * PAYLOAD - 8];
        assert_eq!(feed::pack(3, &payload, &mut blocks).number, 0);
        blocks
    }

    fn old(count: usize, byte: u8) -> Vec<u8> {
        let mut stream = stream(count, byte);
        with_old_checks(&mut stream);
        stream
    }

    #[test]
    fn old_checks_become_those_of_now() {
        for count in [2, 5, 128] {
            let anew = repack(&old(count, 7), Some(Kind::Value));
            assert_eq!(anew, Ok(Repacked::Anew(stream(count, 7))));
        }
    }

    #[test]
    fn what_is_right_is_kept() {
        assert_eq!(repack(&stream(5, 7), None), Ok(Repacked::Kept));
        assert_eq!(repack(&old(1, 7), None), Ok(Repacked::Kept));
    }

    #[test]
    fn what_is_damaged_is_refused() {
        let mut damaged = old(4, 7);
        damaged[2 * BLOCK + 9] ^= 1;
        let refused = repack(&damaged, None).expect_err("a damaged block");
        let lines: Vec<&str> = refused.lines().collect();
        assert_eq!(lines.len(), 2, "{refused}");
        assert!(lines[0].starts_with("by the checks of now, block 1: its check is 0x"));
        assert!(lines[1].starts_with("by the old ones, block 2: its check is 0x"));
    }

    /// A block of one upload behind those of another, the mishap of request b: not papered over.
    #[test]
    fn two_uploads_and_two_kinds_of_checks_are_refused() {
        let (one, other) = (stream(4, 7), stream(4, 8));
        let joined = [&one[..2 * BLOCK], &other[2 * BLOCK..]].concat();
        assert!(repack(&joined, None).is_err());
        let mixed = [&one[..2 * BLOCK], &old(4, 7)[2 * BLOCK..]].concat();
        assert!(repack(&mixed, None).is_err());
    }

    #[test]
    fn lengths_and_kinds_are_judged() {
        assert!(repack(&[], None).is_err());
        assert!(repack(&old(2, 7)[..1000], None).is_err());
        assert!(repack(&old(2, 7), Some(Kind::Grammar)).is_err());
        let mut numbered = old(2, 7);
        numbered[BLOCK] = 2;
        with_old_checks(&mut numbered);
        assert!(repack(&numbered, None).is_err());
    }
}
