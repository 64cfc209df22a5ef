//! `kit check FILE [DATA.json]`

use super::loaded::{Data, Loaded, Text};
use super::{Done, Step, Words};
use crate::assembly::sheet::{Origin, What};
use crate::mistake::{Mistake, Position};
use crate::reasons::explain::Lent;
use crate::reasons::names::Names;
use crate::reasons::paper::{headline, quotes};
use crate::reasons::remarks::{told, Records};
use crate::reasons::room::walked;
use crate::streams::layout::lines;
use crate::streams::record::{Kind, Record};
use feed::{Finished, Refusal};

pub(super) fn run(words: &Words) -> Step<Done> {
    let (loaded, data) = Loaded::read(words.operand(0))?.data(words.optional(1))?;
    let name = &loaded.source.name;
    let Some(data) = data else {
        accepted(&loaded, None)?;
        return Ok(Done::fine(format!("{name}: accepted\n")));
    };
    let (finished, _) = evaluated(&loaded, &data, words.lent)?;
    let (bytes, steps) = (finished.bytes, finished.steps);
    Ok(Done::fine(format!(
        "{name}: accepted, and gives a text of {bytes} bytes in {steps} steps\n"
    )))
}

/// Asks the proved check.
///
/// # Errors
/// The refusal, shown at its line.
pub(super) fn accepted(loaded: &Loaded, data: Option<&Data>) -> Step<()> {
    let set = loaded.streams(data);
    let answer = feed::check(set.grammar, set.templates);
    match answer.refusal() {
        None => Ok(()),
        Some(refusal) => Err(Refused::new(loaded, data, refusal).shown(Vec::new())),
    }
}

/// Checks a description, and evaluates it with its data: what was done, and the text.
///
/// # Errors
/// The refusal, shown at its line.
pub(super) fn evaluated(loaded: &Loaded, data: &Data, lent: Lent) -> Step<(Finished, Vec<u8>)> {
    accepted(loaded, Some(data))?;
    let (set, mut output) = (loaded.streams(Some(data)), vec![0; lent.output]);
    let answer = set.evaluate(lent, &mut output);
    match answer.finished() {
        Ok(finished) => Ok((finished, finished.of(&output).to_vec())),
        Err(refusal) => {
            let refused = Refused::new(loaded, Some(data), refusal);
            let walk = walked(set, lent, &refused.records, &refused.names, answer, &output);
            Err(refused.shown(walk))
        }
    }
}

/// What the library refuses of a value alone, whatever it says of the rest.
pub(super) fn unlike(loaded: &Loaded, data: &Data) -> Option<Done> {
    let (set, lent) = (loaded.streams(Some(data)), Lent::default());
    let answer = set.evaluate(Lent { fuel: 0, ..lent }, &mut []);
    let refusal = answer.refusal()?;
    let of_value = refusal.stream() == Some(feed::Stream::Value);
    of_value.then(|| Refused::new(loaded, Some(data), refusal).shown(Vec::new()))
}

/// A refusal of streams that were made from texts, so that its place is one in a text.
struct Refused<'a> {
    loaded: &'a Loaded,
    data: Option<&'a Data>,
    refusal: Refusal,
    records: Records,
    names: Names,
}

impl<'a> Refused<'a> {
    fn new(loaded: &'a Loaded, data: Option<&'a Data>, refusal: Refusal) -> Self {
        let set = &loaded.set;
        let value = data.map(|data| data.made.sheet.records.clone());
        Self {
            loaded,
            data,
            refusal,
            records: Records {
                grammar: set.grammar.sheet.records.clone(),
                templates: set.templates.sheet.records.clone(),
                value: value.unwrap_or_default(),
            },
            names: Names::of(&set.grammar.sheet.origins, &set.templates.sheet.origins),
        }
    }

    /// The end of a command: the refusal at its line, with what is to be said of it, and the rule.
    fn shown(&self, walk: Vec<String>) -> Done {
        let refusal = self.refusal;
        let told = told(refusal, &self.records, &self.names);
        let mut remarks = told.said;
        let place = self.place(&mut remarks);
        remarks.extend(walk);
        let rules = quotes(refusal, told.why);
        remarks.extend(rules.iter().map(|rule| format!("rule: \"{rule}\"")));
        let message = headline(refusal, told.why);
        let Some((source, at)) = place else {
            let remarks: String = remarks.iter().map(|it| format!("  = {it}\n")).collect();
            let name = &self.loaded.source.name;
            return Done::refused(format!("{name}: {message}\n{remarks}"));
        };
        Done::refused(source.shown(&[Mistake::new(at, message).with(remarks)]))
    }

    /// The place of the refusal in its text. Of a broken layout it is what the kit finds odd.
    fn place(&self, remarks: &mut Vec<String>) -> Option<(&'a Text, Position)> {
        let kind = self.refusal.stream().and_then(Kind::of_stream)?;
        let record = match self.refusal {
            Refusal::Layout { .. } => {
                let lines = lines(kind, self.of_kind(kind));
                let odd = lines.iter().find(|line| !line.odd.is_empty())?;
                remarks.extend(odd.odd.iter().cloned());
                odd.first
            }
            Refusal::Typing { node: 0 } => self.root()?,
            other => usize::try_from(other.record()?).ok()?,
        };
        let origin = self.origins(kind).get(record)?;
        Some((self.source(kind), origin.at))
    }

    fn source(&self, kind: Kind) -> &'a Text {
        match (kind, self.data) {
            (Kind::Value, Some(data)) => &data.source,
            _ => &self.loaded.source,
        }
    }

    fn of_kind(&self, kind: Kind) -> &[Record] {
        match kind {
            Kind::Grammar => &self.records.grammar,
            Kind::Templates => &self.records.templates,
            Kind::Value => &self.records.value,
        }
    }

    fn origins(&self, kind: Kind) -> &'a [Origin] {
        match kind {
            Kind::Grammar => &self.loaded.set.grammar.sheet.origins,
            Kind::Templates => &self.loaded.set.templates.sheet.origins,
            Kind::Value => self.data.map_or(&[], |data| &data.made.sheet.origins),
        }
    }

    /// The record of template 0, or the last of all if there is none.
    fn root(&self) -> Option<usize> {
        let origins = self.origins(Kind::Templates);
        let is_template =
            |origin: &Origin| matches!(origin.names.first(), Some((What::Template, _)));
        origins
            .iter()
            .position(is_template)
            .or(origins.len().checked_sub(1))
    }
}
