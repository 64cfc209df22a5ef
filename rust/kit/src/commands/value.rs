//! `kit value FILE DATA.json OUT.blk`

use super::check::unlike;
use super::loaded::{Data, Loaded};
use super::output::{unread, written};
use super::{Done, Step, Words};

pub(super) fn run(words: &Words) -> Step<Done> {
    let [file, data, out] = [0, 1, 2].map(|number| words.operand(number));
    unread("value", "OUT.blk", [file, data], out)?;
    let loaded = Loaded::read(file)?;
    let data = Data::read(&loaded, data)?;
    match unlike(&loaded, &data) {
        Some(refused) => Err(refused),
        None => written(out, data.made.blocks),
    }
}
