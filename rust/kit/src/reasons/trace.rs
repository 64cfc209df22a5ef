//! How a walk came to the node where it met a limit: the templates entered, the items of the fors, and the
//! arms of the matches.
//!
//! All three streams are accepted here: the library walks only then.

mod walk;

#[cfg(test)]
mod tests;

use crate::reasons::context::WIDEST;
use crate::reasons::due::text_bytes;
use crate::reasons::limits::LEVELS;
use crate::reasons::names::{Binder, Names};
use crate::reasons::tables::Tables;
use crate::streams::record::Record;
use crate::words::{bare, counted, cut, named, quoted};
use feed::Answer;
use walk::{again, Level, Stop, Text};

/// The most steps that are taken again: the walk's own chain isn't worth more than a second or so.
const MOST_STEPS: u64 = 20_000_000;

/// The levels shown at the beginning and at the end of a long chain.
const SHOWN: (usize, usize) = (4, 5);

/// How a walk came to the node where it stopped.
#[derive(Debug, Default, PartialEq, Eq)]
pub struct Way {
    /// The templates, fors and arms, the outermost first.
    pub levels: Vec<String>,
    /// Why it came too deep, if it did.
    pub why: Option<String>,
    /// The text that didn't fit, if that is where it stopped, and how long it is.
    pub unfit: Option<String>,
}

/// How a walk came to the node where it stopped. It is empty where the answer is no walk's that met a
/// limit, and where the steps are too many to be taken again.
pub fn trace(
    grammar: &[Record],
    templates: &[Record],
    value: &[Record],
    names: &Names,
    answer: Answer,
) -> Way {
    if !(10..=12).contains(&answer.number) || answer.steps > MOST_STEPS {
        return Way::default();
    }
    let Some(Stop { levels, unfit }) = again(&Tables::of(grammar, templates), value, answer) else {
        return Way::default();
    };
    let streams = [grammar, templates, value];
    Way {
        levels: bounded(levels.iter().map(|level| line(level, names)).collect()),
        why: (answer.number == 11).then(|| deep(&levels, names)),
        unfit: unfit.and_then(|(text, length)| called(text, length, streams)),
    }
}

/// A text that didn't fit, by what it is.
fn called(
    text: Text,
    length: usize,
    [grammar, templates, value]: [&[Record]; 3],
) -> Option<String> {
    let (what, records, head, own) = match text {
        Text::Keyword(head) => ("keyword", grammar, head, length),
        Text::Separator(head) => ("separator", grammar, head, length),
        Text::Literal(head) => ("literal", templates, head, length),
        Text::Place(head) => ("text", value, head, usize::from(value.get(head)?.b())),
    };
    let text = cut(&quoted(&text_bytes(records, head, own)?), WIDEST);
    let bytes = counted(length, "byte", "bytes");
    let entities = if own == length {
        ""
    } else {
        " with its entities"
    };
    Some(format!("the {what} {text} has {bytes}{entities}"))
}

fn line(level: &Level, names: &Names) -> String {
    match *level {
        Level::Template(number) => names.template(number),
        Level::For {
            node,
            variable,
            item,
            items,
        } => {
            let which = match names.variables.get(&node) {
                Some(name) => format!("for {}", named(name)),
                None => format!("for (variable {variable})"),
            };
            format!("{which}, item {item} of {items}")
        }
        Level::Match {
            arm,
            case,
            variable,
        } => {
            let content = match names.variable_name(Binder::Arm(arm)) {
                Some(name) => format!("as {}", named(name)),
                None => format!("(variable {variable})"),
            };
            format!("{} {content}", names.arm(case, arm))
        }
    }
}

/// The first and the last of many lines.
fn bounded(mut lines: Vec<String>) -> Vec<String> {
    let (first, last) = SHOWN;
    let left_out = lines.len().saturating_sub(first + last);
    if left_out > 1 {
        lines.splice(first..first + left_out, [format!(".. {left_out} more ..")]);
    }
    lines
}

/// Why a walk came so deep: mostly because templates expand one another.
fn deep(levels: &[Level], names: &Names) -> String {
    let templates: Vec<usize> = levels
        .iter()
        .filter_map(|level| match level {
            Level::Template(number) => Some(*number),
            Level::For { .. } | Level::Match { .. } => None,
        })
        .collect();
    let why = match cycle(&templates) {
        None => "a child is one level deeper than its node".to_string(),
        Some([_, own]) => format!("{} expands itself", names.template(*own)),
        Some(cycle) => format!("templates {} .. expand one another", arrows(cycle, names)),
    };
    format!("{why}; the body of each expand is one level deeper, and {LEVELS} levels are the most")
}

/// The innermost template that was entered before, from that time on.
fn cycle(templates: &[usize]) -> Option<&[usize]> {
    (0..templates.len()).rev().find_map(|last| {
        let before = &templates[..last];
        let first = before.iter().rposition(|&it| it == templates[last])?;
        Some(&templates[first..=last])
    })
}

/// The most templates of a cycle that are named.
const NAMED: usize = 8;

fn arrows(cycle: &[usize], names: &Names) -> String {
    let mut words: Vec<String> = cycle
        .iter()
        .map(|&number| bare(&names.template(number)))
        .collect();
    if words.len() > NAMED {
        words.splice(NAMED - 2..words.len() - 1, ["..".to_string()]);
    }
    words.join(" → ")
}
