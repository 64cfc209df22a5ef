//! `kit lint FILE`

use super::check::accepted;
use super::loaded::Loaded;
use super::{Done, Step, Words};
use crate::lint::lint;

pub(super) fn run(words: &Words) -> Step<Done> {
    let loaded = Loaded::read(words.operand(0))?;
    accepted(&loaded, None)?;
    let found = lint(&loaded.tree);
    match found.is_empty() {
        true => Ok(Done::fine(format!(
            "{}: nothing to say\n",
            loaded.source.name
        ))),
        false => Ok(Done::report(loaded.source.shown(&found), false)),
    }
}
