//! `kit size FILE [DATA.json]`

use super::check::evaluated;
use super::loaded::{Data, Loaded, Unpacked};
use super::render::with_data;
use super::{Done, Step, Words};
use crate::assembly::sheet::Sheet;
use crate::assembly::size::{lists, List};
use crate::reasons::explain::Lent;
use crate::reasons::room::{MOST_FUEL, MOST_OUTPUT};
use crate::streams::record::{packed, Kind, BLOCK_RECORDS, STREAM_RECORDS};
use crate::words::counted;
use feed::Finished;

pub(super) fn run(words: &Words) -> Step<Done> {
    let (loaded, data) = read(words)?;
    let mut text = streams(&loaded, &data.made.sheet);
    let answer = evaluated(&loaded, &data, words.lent);
    let taken = taken(&loaded, &data.made.blocks, words.lent);
    if let Some(Finished { steps, bytes }) = taken {
        let Lent { output, fuel, .. } = words.lent;
        let line = format!("{bytes} of {output} bytes, {steps} of {fuel} steps");
        text.push_str(&format!("{:<10}{line}\n", "text"));
    }
    for list in lists(&loaded.tree, &data.made.sheet) {
        let limits = limits(&loaded, &data, &list, words.lent, taken);
        text.push_str(&line(&list, &limits));
    }
    match answer {
        Ok(_) => Ok(Done::fine(text)),
        Err(refused) => Err(with_table(text, refused)),
    }
}

/// The description and its data. Of data that no stream holds it is told how much would fit.
fn read(words: &Words) -> Step<(Loaded, Data)> {
    let Some(file) = words.optional(1) else {
        return with_data("size", words);
    };
    let loaded = Loaded::read(words.operand(0))?;
    let unpacked = Unpacked::read(&loaded, file)?;
    let mut text = streams(&loaded, &unpacked.sheet);
    for list in lists(&loaded.tree, &unpacked.sheet) {
        let limit = Limit::records(unpacked.sheet.records.len(), &list);
        text.push_str(&line(&list, &[limit]));
    }
    match unpacked.packed() {
        Ok(data) => Ok((loaded, data)),
        Err(refused) => Err(with_table(text, refused)),
    }
}

/// A refusal, with what could be told all the same.
fn with_table(text: String, refused: Done) -> Done {
    Done {
        out: text.into_bytes(),
        ..refused
    }
}

fn streams(loaded: &Loaded, value: &Sheet) -> String {
    let streams = [
        ("grammar", &loaded.set.grammar.sheet),
        ("templates", &loaded.set.templates.sheet),
        ("value", value),
    ];
    let line = |(name, sheet): (&str, &Sheet)| {
        let records = sheet.records.len();
        format!(
            "{name:<10}{records} of {STREAM_RECORDS} records, {} of 128 blocks, {} % full\n",
            records.div_ceil(BLOCK_RECORDS),
            (100 * records).div_ceil(STREAM_RECORDS)
        )
    };
    streams.map(line).concat()
}

/// What a value takes, if it is finished with what is lent or with as much as is worth a try.
fn taken(loaded: &Loaded, value: &[u8], lent: Lent) -> Option<Finished> {
    let mut set = loaded.streams(None);
    set.value = value;
    let most = Lent {
        output: lent.output.max(MOST_OUTPUT),
        fuel: lent.fuel.max(MOST_FUEL),
        ..lent
    };
    let answer = set.evaluated(lent).finished();
    answer.or_else(|_| set.evaluated(most).finished()).ok()
}

/// Something that may be full: how much there is of it, how much is taken, and how much of that without
/// the items of a list.
struct Limit {
    name: &'static str,
    most: u64,
    taken: u64,
    without: u64,
}

impl Limit {
    fn records(taken: usize, list: &List) -> Self {
        Self {
            name: "value stream",
            most: STREAM_RECORDS as u64,
            taken: taken as u64,
            without: taken.saturating_sub(list.records) as u64,
        }
    }

    /// How many items fit, if they are like those that are there; items that take nothing always do.
    fn fit(&self, items: usize) -> Option<u64> {
        let own = self
            .taken
            .checked_sub(self.without)
            .filter(|&own| own > 0)?;
        Some(self.most.saturating_sub(self.without) * items as u64 / own)
    }
}

/// The limits that a list's items may meet.
fn limits(
    loaded: &Loaded,
    data: &Data,
    list: &List,
    lent: Lent,
    taken_by_all: Option<Finished>,
) -> Vec<Limit> {
    let records = &data.made.sheet.records;
    let mut found = vec![Limit::records(records.len(), list)];
    let emptied = packed(Kind::Value, &list.emptied(records)).ok();
    let without = emptied.and_then(|value| taken(loaded, &value, lent));
    if let (Some(all), Some(without)) = (taken_by_all, without) {
        found.push(Limit {
            name: "output",
            most: lent.output as u64,
            taken: all.bytes,
            without: without.bytes,
        });
        found.push(Limit {
            name: "fuel",
            most: u64::from(lent.fuel),
            taken: all.steps,
            without: without.steps,
        });
    }
    found
}

/// How many items of a list fit, and what is full then.
fn line(list: &List, limits: &[Limit]) -> String {
    let (path, items) = (&list.path, list.items as u64);
    let fit = limits
        .iter()
        .filter_map(|limit| Some((limit.fit(list.items)?, limit.name)));
    let Some((fit, name)) = fit.min() else {
        return format!("{path}: no item, so there is none to go by\n");
    };
    let count = counted(list.items, "item", "items");
    let fitting = match fit.checked_sub(items) {
        Some(more) => format!("about {more} more fit"),
        None => format!("about {fit} of them fit"),
    };
    let records = list.records;
    format!("{path}: {count} in {records} records; {fitting}, then the {name} is full\n")
}
