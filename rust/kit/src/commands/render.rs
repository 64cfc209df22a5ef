//! `kit render FILE [DATA.json]`

use super::check::evaluated;
use super::loaded::{Data, Loaded};
use super::output::{unread, written};
use super::table::misused;
use super::{Done, Step, Words};

pub(super) fn run(words: &Words) -> Step<Done> {
    if let Some(out) = &words.to {
        let inputs = [Some(words.operand(0)), words.optional(1)];
        unread("render", "--to", inputs.into_iter().flatten(), out)?;
    }
    let (loaded, data) = with_data("render", words)?;
    let (_, text) = evaluated(&loaded, &data, words.lent)?;
    match &words.to {
        None => Ok(Done::fine(text)),
        Some(out) => written(out, text),
    }
}

/// A description and the data for it, which must be there.
pub(super) fn with_data(name: &str, words: &Words) -> Step<(Loaded, Data)> {
    let (loaded, data) = Loaded::read(words.operand(0))?.data(words.optional(1))?;
    match data {
        Some(data) => Ok((loaded, data)),
        None => {
            let file = &loaded.source.name;
            let message = format!("{file} has no value, and DATA.json is missing");
            Err(misused(name, &message))
        }
    }
}
