//! A record of a stream among those around it.

use crate::streams::layout::Line;
use crate::streams::record::Kind;
use crate::words::cut;

/// The first line that the kit finds odd: the library gives no place for a broken layout.
pub fn odd_record(kind: Kind, lines: &[Line]) -> String {
    match lines.iter().find(|line| !line.odd.is_empty()) {
        Some(line) => {
            let odd = line.odd.join("; ");
            format!(
                "{}  the kit finds odd at record {}: {odd}\n",
                context(kind, lines, line.first),
                line.first
            )
        }
        None => format!("  `kit dump {}` prints its records\n", kind.file()),
    }
}

/// How many lines stand before and after the place.
const AROUND: usize = 3;

/// The longest line shown.
pub const WIDEST: usize = 100;

/// The line of a record, marked, with the heads around it and a few lines before and after it.
pub fn context(kind: Kind, lines: &[Line], place: usize) -> String {
    let Some(target) = lines
        .iter()
        .position(|line| line.first <= place && place <= line.last)
    else {
        return String::new();
    };
    let around = heads_around(lines, target);
    let near = target.saturating_sub(AROUND)..=target + AROUND;
    let mut text = format!("  {}\n", kind.file());
    let mut left_out = false;
    for (index, line) in lines.iter().enumerate().take(target + AROUND + 1) {
        if !near.contains(&index) && !around.contains(&index) {
            left_out = true;
            continue;
        }
        if std::mem::take(&mut left_out) {
            text.push_str("           ..\n");
        }
        let mark = if index == target { '>' } else { ' ' };
        text.push_str(&format!("{mark} {}\n", cut(&line.indented(), WIDEST)));
    }
    text
}

/// The lines of the heads that a line stands below.
fn heads_around(lines: &[Line], target: usize) -> Vec<usize> {
    let mut depth = lines[target].depth;
    let mut found = Vec::new();
    for index in (0..target).rev() {
        if lines[index].depth < depth {
            depth = lines[index].depth;
            found.push(index);
        }
    }
    bounded(found)
}

/// How many heads around a line are shown, the innermost and the outermost: there may be thousands.
const INNERMOST: usize = 12;
const OUTERMOST: usize = 4;

/// The heads that are shown, of all from the innermost outwards.
fn bounded(mut found: Vec<usize>) -> Vec<usize> {
    let outer = found.len().saturating_sub(OUTERMOST);
    if outer > INNERMOST {
        found.drain(INNERMOST..outer);
    }
    found
}
