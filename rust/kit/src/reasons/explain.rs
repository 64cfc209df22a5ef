//! Runs the proved library on three streams, and shows what it refuses and where.

#[cfg(test)]
mod tests;

use crate::assembly::map::Guide;
use crate::reasons::context::{context, odd_record};
use crate::reasons::paper::{headline, quotes};
use crate::reasons::remarks::{told, Records};
use crate::reasons::room::walked;
use crate::streams::layout::lines_with;
use crate::streams::record::{Found, Kind};
use crate::words::{counted, named};
use feed::{Answer, Refusal, Stream};

/// The three streams, as their files hold them.
#[derive(Clone, Copy, Debug)]
pub struct Set<'a> {
    /// The grammar.
    pub grammar: &'a [u8],
    /// The templates.
    pub templates: &'a [u8],
    /// The value.
    pub value: &'a [u8],
}

impl<'a> Set<'a> {
    fn bytes(&self, kind: Kind) -> &'a [u8] {
        match kind {
            Kind::Grammar => self.grammar,
            Kind::Templates => self.templates,
            Kind::Value => self.value,
        }
    }

    /// The library's answer, with so much lent; the text is written into the output.
    pub fn evaluate(&self, lent: Lent, output: &mut [u8]) -> Answer {
        let mut scratch = vec![0; lent.scratch];
        let (grammar, templates, value) = (self.grammar, self.templates, self.value);
        feed::evaluate(grammar, templates, value, lent.fuel, output, &mut scratch)
    }

    /// The library's answer, where the text doesn't matter.
    pub fn evaluated(&self, lent: Lent) -> Answer {
        self.evaluate(lent, &mut vec![0; lent.output])
    }

    /// The records of all three, as they are found.
    fn records(&self) -> Records {
        let read = |kind| Found::read(self.bytes(kind), Some(kind)).records;
        Records {
            grammar: read(Kind::Grammar),
            templates: read(Kind::Templates),
            value: read(Kind::Value),
        }
    }
}

/// What an evaluate call is lent beside the streams.
#[derive(Clone, Copy, Debug)]
pub struct Lent {
    /// The fuel.
    pub fuel: u32,
    /// The bytes of the output.
    pub output: usize,
    /// The 16-bit numbers of the scratch.
    pub scratch: usize,
}

impl Default for Lent {
    /// What the paper's program lends.
    fn default() -> Self {
        Self {
            fuel: 1_000_000,
            output: 65_536,
            scratch: feed::SCRATCH,
        }
    }
}

/// What the library answers, in words.
#[derive(Debug)]
pub struct Explanation {
    /// The lines, with a newline after each.
    pub text: String,
    /// Whether the set was accepted and the text finished.
    pub finished: bool,
}

/// Runs check and evaluate, and explains what they answer, with numbers where a description has names.
pub fn explain(set: Set<'_>, lent: Lent) -> Explanation {
    explain_with(set, lent, &Guide::default())
}

/// Runs check and evaluate, and explains what they answer, by what the map of the set tells.
pub fn explain_with(set: Set<'_>, lent: Lent, guide: &Guide) -> Explanation {
    let check = feed::check(set.grammar, set.templates);
    let mut output = vec![0; lent.output];
    let evaluate = set.evaluate(lent, &mut output);
    let mut text = String::new();
    match check.refusal() {
        None => text.push_str("check: accepted\n"),
        Some(refusal) => text.push_str(&refused("check", refusal, set, guide)),
    }
    match evaluate.refusal() {
        None => text.push_str(&finished(evaluate)),
        Some(refusal) if check.refusal() == Some(refusal) => {
            text.push_str("evaluate: the same refusal\n")
        }
        Some(refusal) => {
            text.push_str(&refused("evaluate", refusal, set, guide));
            let walk = walked(set, lent, &set.records(), &guide.names, evaluate, &output);
            text.push_str(&remarks(&walk));
        }
    }
    Explanation {
        text,
        finished: check.number == 0 && evaluate.number == 0,
    }
}

fn finished(answer: Answer) -> String {
    let (steps, bytes) = (answer.steps, answer.bytes);
    format!("evaluate: finished, {steps} steps, a text of {bytes} bytes\n")
}

/// A refusal: its line, the rule in the paper's words, the place in its context, and what is to be
/// said of it.
fn refused(call: &str, refusal: Refusal, set: Set<'_>, guide: &Guide) -> String {
    let told = told(refusal, &set.records(), &guide.names);
    let line = match refusal {
        Refusal::Typing { node } if node > 0 => {
            let (stream, rule) = (Stream::Templates, headline(refusal, told.why));
            format!("{stream}, record {node}: {rule}")
        }
        other => other.to_string(),
    };
    let mut text = format!("{call}: {line}\n");
    for quote in quotes(refusal, told.why) {
        text.push_str(&format!("    \"{quote}\"\n"));
    }
    text.push_str(&offending(refusal, set, guide));
    text.push_str(&remarks(&told.said));
    text
}

/// Lines that say more of an offending record.
fn remarks(lines: &[String]) -> String {
    lines.iter().map(|line| format!("  = {line}\n")).collect()
}

/// The offending block or record in its context.
fn offending(refusal: Refusal, set: Set<'_>, guide: &Guide) -> String {
    let Some(kind) = refusal.stream().and_then(Kind::of_stream) else {
        return String::new();
    };
    let bytes = set.bytes(kind);
    let found = Found::read(bytes, Some(kind));
    let lines = || lines_with(kind, &found.records, &guide.names);
    match refusal {
        Refusal::Length { .. } => format!(
            "  {} has {}\n",
            kind.file(),
            counted(bytes.len(), "byte", "bytes")
        ),
        Refusal::Block { block, .. } => {
            let damage = usize::try_from(block)
                .ok()
                .and_then(|block| found.damage.get(block));
            let marks = damage.into_iter().flatten();
            marks
                .map(|wrong| format!("  {}, block {block}: {wrong}\n", kind.file()))
                .collect()
        }
        Refusal::Layout { .. } => odd_record(kind, &lines()),
        _ => {
            let record = refusal.record().map(usize::try_from);
            let place = record.and_then(Result::ok);
            place.map_or_else(String::new, |place| {
                context(kind, &lines(), place) + &origin(kind, place, guide)
            })
        }
    }
}

/// The place of a record in the description.
fn origin(kind: Kind, record: usize, guide: &Guide) -> String {
    let Some(at) = guide.place(kind, record) else {
        return String::new();
    };
    let name = named(&guide.description);
    remarks(&[format!("line {}, column {} of {name}", at.line, at.column)])
}

/// What is said of a description with another part.
#[cfg(test)]
pub(crate) fn explained_with(description: &str, from: &str, to: &str) -> String {
    explained_by_name(
        description,
        from,
        to,
        &crate::reasons::names::Names::default(),
    )
}

/// The same, by these names.
#[cfg(test)]
pub(crate) fn explained_by_name(
    description: &str,
    from: &str,
    to: &str,
    names: &crate::reasons::names::Names,
) -> String {
    assert!(description.contains(from), "{from}");
    let streams = crate::assemble(&description.replacen(from, to, 1)).expect("streams");
    let set = Set {
        grammar: &streams.grammar,
        templates: &streams.templates,
        value: &streams.value,
    };
    let mut guide = Guide::default();
    guide.names.clone_from(names);
    explain_with(set, Lent::default(), &guide).text
}

/// Words of a line, as names.
#[cfg(test)]
pub(crate) fn words(line: &str) -> Vec<String> {
    line.split_whitespace().map(str::to_string).collect()
}

/// The remarks in an explanation, by which a refusal with this number is told more closely.
#[cfg(test)]
pub(crate) fn remarks_of(text: &str, number: u8) -> Vec<String> {
    assert!(text.contains(&format!("(refusal {number})")), "{text}");
    let lines = text.lines().filter_map(|line| line.strip_prefix("  = "));
    lines.map(str::to_string).collect()
}
