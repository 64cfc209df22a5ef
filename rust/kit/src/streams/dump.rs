//! Prints a stream record by record.

use crate::assembly::map::{Guide, Map};
use crate::mistake::Position;
use crate::streams::layout::{hex, lines_with, Line};
use crate::streams::record::{Found, Record, BLOCK_RECORDS};
use crate::words::{counted, named};

/// A stream printed for a person.
#[derive(Debug)]
pub struct Dump {
    /// The lines, with a newline after each.
    pub text: String,
    /// Whether nothing in it is damaged or odd.
    pub sound: bool,
}

/// Prints a stream's bytes. Damaged blocks are named where they begin, and their records are printed too.
/// What a map that fits the stream tells is said with it.
pub fn dump(name: &str, bytes: &[u8], map: Option<&Map>) -> Dump {
    let found = Found::read(bytes, None);
    let map = map.filter(|map| found.kind.is_some_and(|kind| map.fits(kind, bytes)));
    let guide = map.map(Guide::of).unwrap_or_default();
    let lines = match found.kind {
        Some(kind) => lines_with(kind, &found.records, &guide.names),
        None => raw(&found.records),
    };
    let mut text = heading(name, &found);
    if map.is_some() {
        let description = named(&guide.description);
        text.push_str(&format!("lines and columns are those of {description}\n"));
    }
    let mut blocks = found.damage.iter().enumerate().peekable();
    for line in &lines {
        while let Some((number, damage)) =
            blocks.next_if(|(number, _)| number * BLOCK_RECORDS <= line.last)
        {
            text.push_str(&block_marks(number, damage));
        }
        let place = found.kind.and_then(|kind| guide.place(kind, line.first));
        text.push_str(&marked(line, place));
    }
    let odd = lines.iter().any(|line| !line.odd.is_empty());
    Dump {
        text,
        sound: !odd && found.damaged() == 0 && found.length.is_none(),
    }
}

fn heading(name: &str, found: &Found) -> String {
    let kind = found
        .kind
        .map_or_else(|| "no kind".to_string(), |kind| kind.to_string());
    let blocks = counted(found.damage.len(), "block", "blocks");
    let records = counted(found.records.len(), "record", "records");
    let mut text = format!("{name}: {kind}, {blocks}, {records}");
    if found.damaged() > 0 {
        text.push_str(&format!(
            ", {}",
            counted(found.damaged(), "damaged block", "damaged blocks")
        ));
    }
    text.push('\n');
    if let Some(wrong) = &found.length {
        text.push_str(&format!("! the length: {wrong}\n"));
    }
    text
}

fn block_marks(number: usize, damage: &[String]) -> String {
    damage
        .iter()
        .map(|wrong| format!("! block {number}: {wrong}\n"))
        .collect()
}

/// A line, with the place that its head comes from, and below it what is odd about it.
fn marked(line: &Line, place: Option<Position>) -> String {
    let marks: String = line
        .odd
        .iter()
        .map(|odd| format!("!            {odd}\n"))
        .collect();
    let place = place.filter(|_| line.is_head);
    let place = place.map_or_else(String::new, |at| format!("  ({}:{})", at.line, at.column));
    format!("{}{place}\n{marks}", line.indented())
}

/// Records whose stream has no kind, so that they mean nothing.
fn raw(records: &[Record]) -> Vec<Line> {
    let line = |(at, record): (usize, &Record)| Line {
        first: at,
        last: at,
        depth: 0,
        says: hex(*record),
        odd: Vec::new(),
        is_head: false,
    };
    records.iter().enumerate().map(line).collect()
}

#[cfg(test)]
mod tests {
    use super::*;

    fn two_blocks() -> Vec<u8> {
        let ranges = "U+0061 ".repeat(70);
        let description = format!("class c 0 to 1 {{ {ranges} }} type t = yesno value yes");
        crate::assemble(&description).expect("streams").grammar
    }

    #[test]
    fn a_sound_stream() {
        let found = dump("value.blk", &two_blocks(), None);
        assert!(found.sound);
        assert!(found
            .text
            .starts_with("value.blk: grammar, 2 blocks, 126 records\n        0  class 0"));
        assert!(found.text.ends_with("   71-125  55 zero records\n"));
    }

    #[test]
    fn a_damaged_block_is_named_and_the_rest_printed() {
        let mut bytes = two_blocks();
        bytes[512 + 508] ^= 1;
        let found = dump("g", &bytes, None);
        assert!(!found.sound);
        let damaged = found
            .text
            .find("! block 1: its check is")
            .expect("the damage");
        let record = found
            .text
            .find("       63    range U+0061-U+0061")
            .expect("the record after it");
        assert!(damaged < record);
        assert!(found.text.contains("71-125  55 zero records"));
    }

    #[test]
    fn bytes_of_no_kind_and_no_length() {
        assert_eq!(
            dump("x", b"", None).text,
            "x: no kind, 0 blocks, 0 records\n! the length: it is empty\n"
        );
        let found = dump("x", &[9; 520], None);
        assert!(found
            .text
            .contains("! the length: 520 bytes are no multiple of 512; the last 8 are left out"));
        assert!(found.text.contains("! block 0: its kind is 9, not 1 to 3"));
        assert!(found
            .text
            .contains("       62  bytes 09 09 09 09 09 09 09 09"));
    }
}
