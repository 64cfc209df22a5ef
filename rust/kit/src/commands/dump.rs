//! `kit dump FILE.blk`

use super::{beside, Done, Step, Words};
use crate::files::{self, MOST_STREAM};
use crate::streams::dump::dump;
use crate::streams::record::{Found, Kind};
use crate::words::file_called;
use std::path::Path;

pub(super) fn run(words: &Words) -> Step<Done> {
    let file = words.operand(0);
    let bytes = files::start(file, MOST_STREAM).map_err(Done::file)?;
    // A map tells of grammar and templates only.
    let (map, note) = match Found::read(&bytes, None).kind {
        Some(kind) if kind != Kind::Value => {
            let folder = file.parent().unwrap_or(Path::new(""));
            beside::map(folder, &[(kind, &bytes)])
        }
        _ => (None, String::new()),
    };
    let found = dump(&file_called(file), &bytes, map.as_ref());
    Ok(Done {
        err: note,
        ..Done::report(found.text, found.sound)
    })
}
