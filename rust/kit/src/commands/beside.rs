//! The map beside streams.

use crate::assembly::map::{self, Map};
use crate::files;
use crate::streams::record::Kind;
use crate::words::file_called;
use std::path::Path;

/// The most bytes of a map that are read: it repeats the names of a description in its every record.
const MOST_MAP: usize = 64 << 20;

/// The map in a folder if it fits these streams, and a note if it is there and can't be used.
pub(super) fn map(folder: &Path, streams: &[(Kind, &[u8])]) -> (Option<Map>, String) {
    let file = folder.join(map::FILE);
    if !file.exists() {
        return (None, String::new());
    }
    let name = file_called(&file);
    let without = |why: String| {
        let note = format!("{name}: {why}, so things are called by their numbers\n");
        (None, note)
    };
    let map = match files::read(&file, MOST_MAP).map(|bytes| Map::read(&bytes)) {
        Err(_) => return without("this can't be read".to_string()),
        Ok(Err(mistake)) => return without(format!("this is no map ({mistake})")),
        Ok(Ok(map)) => map,
    };
    let other: Vec<String> = streams
        .iter()
        .filter(|(kind, stream)| !map.fits(*kind, stream))
        .map(|(kind, _)| format!("the {kind}"))
        .collect();
    match other.is_empty() {
        true => (Some(map), String::new()),
        false => without(format!("this map doesn't fit {}", other.join(" and "))),
    }
}
