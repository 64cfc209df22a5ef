//! What is to be said of a walk that met a limit: how it came there, what it had done, and what would do.

use crate::reasons::explain::{Lent, Set};
use crate::reasons::names::Names;
use crate::reasons::remarks::Records;
use crate::reasons::trace::trace;
use crate::words::{counted, quoted};
use feed::{Answer, Refusal};

/// The most bytes of output that are tried.
pub const MOST_OUTPUT: usize = 64 << 20;

/// The most fuel that is tried.
pub const MOST_FUEL: u32 = 20_000_000;

/// The lines for a refusal that a walk met; none for others.
pub fn walked(
    set: Set<'_>,
    lent: Lent,
    records: &Records,
    names: &Names,
    answer: Answer,
    output: &[u8],
) -> Vec<String> {
    let Some(refusal) = answer.refusal() else {
        return Vec::new();
    };
    let mut said = Vec::new();
    match refusal {
        Refusal::FuelSpent { .. } | Refusal::TooDeep { .. } | Refusal::OutputFull { .. } => {
            let way = trace(
                &records.grammar,
                &records.templates,
                &records.value,
                names,
                answer,
            );
            said.extend(way.unfit.map(|unfit| no_room(&unfit, answer, lent)));
            said.extend(joined(&way.levels));
            said.extend(way.why);
            said.push(so_far(answer, lent, output));
            said.extend(enough(set, lent, refusal));
        }
        Refusal::ScratchTooShort => {
            said.push(format!(
                "{} are lent",
                counted(lent.scratch, "number", "numbers")
            ));
        }
        _ => {}
    }
    said
}

/// The way of a walk as one remark of several lines.
fn joined(way: &[String]) -> Option<String> {
    let lines: String = way.iter().map(|line| format!("\n      {line}")).collect();
    (!way.is_empty()).then(|| format!("the way there:{lines}"))
}

/// The text that doesn't fit, with the room that is left.
fn no_room(unfit: &str, answer: Answer, lent: Lent) -> String {
    let written = usize::try_from(answer.bytes).unwrap_or(usize::MAX);
    let left = lent.output.saturating_sub(written);
    let are = if left == 1 { "is" } else { "are" };
    format!("{unfit}, and {left} {are} left")
}

/// What a walk had done until then.
fn so_far(answer: Answer, lent: Lent, output: &[u8]) -> String {
    let written = answer.written(output);
    let end = &written[written.len().saturating_sub(40)..];
    let begun = if end.len() < written.len() { ".. " } else { "" };
    let steps = usize::try_from(answer.steps).unwrap_or(usize::MAX);
    format!(
        "the walk took {} with fuel {} and wrote {} of {}; the text so far ends with {begun}{}",
        counted(steps, "step", "steps"),
        lent.fuel,
        answer.bytes,
        counted(lent.output, "byte", "bytes"),
        quoted(end)
    )
}

/// How much fuel or room would do, if that is not too much to try.
fn enough(set: Set<'_>, lent: Lent, refusal: Refusal) -> Option<String> {
    match refusal {
        Refusal::OutputFull { .. } if lent.output < MOST_OUTPUT => Some(room(set, lent)),
        Refusal::FuelSpent { .. } if lent.fuel < MOST_FUEL => Some(fuel(set, lent)),
        _ => None,
    }
}

fn room(set: Set<'_>, lent: Lent) -> String {
    let mut output = lent.output.max(1 << 16);
    loop {
        output = (2 * output).min(MOST_OUTPUT);
        let answer = set.evaluated(Lent { output, ..lent });
        match answer.refusal() {
            None => return format!("an output of {} bytes would do", answer.bytes),
            Some(Refusal::OutputFull { .. }) if output < MOST_OUTPUT => {}
            Some(Refusal::OutputFull { .. }) => {
                return format!("an output of {MOST_OUTPUT} bytes would not do")
            }
            Some(other) => {
                return format!(
                    "with more room the walk writes {} bytes, and then: {}",
                    answer.bytes,
                    other.rule()
                )
            }
        }
    }
}

fn fuel(set: Set<'_>, lent: Lent) -> String {
    let fuel = MOST_FUEL;
    let answer = set.evaluated(Lent { fuel, ..lent });
    match answer.refusal() {
        None => format!("fuel of {} would do", answer.steps),
        Some(Refusal::FuelSpent { .. }) => format!("fuel of {fuel} would not do"),
        Some(other) => format!(
            "with more fuel the walk takes {} steps, and then: {}",
            answer.steps,
            other.rule()
        ),
    }
}

#[cfg(test)]
mod tests;
