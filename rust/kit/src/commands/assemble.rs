//! `kit assemble FILE DIR`

use super::loaded::Loaded;
use super::{Done, Step, Words};
use crate::assembly::map;
use crate::files;
use crate::streams::record::Kind;
use crate::words::file_called;
use std::path::PathBuf;

pub(super) fn run(words: &Words) -> Step<Done> {
    let (loaded, folder) = (Loaded::read(words.operand(0))?, words.operand(1));
    let map = loaded.map().written().into_bytes();
    let streams = [
        (Kind::Grammar, Some(loaded.set.grammar.blocks)),
        (Kind::Templates, Some(loaded.set.templates.blocks)),
        (Kind::Value, loaded.set.value.map(|made| made.blocks)),
    ];
    let mut files: Vec<(PathBuf, Vec<u8>)> = Vec::new();
    let mut text = String::new();
    for (kind, stream) in streams {
        let path = folder.join(kind.file());
        let name = file_called(&path);
        match stream {
            Some(stream) => {
                text.push_str(&format!("{name}: {} bytes\n", stream.len()));
                files.push((path, stream));
            }
            None => text.push_str(&format!(
                "{name}: not written, since the description has no value (`kit value` makes one from JSON)\n"
            )),
        }
    }
    let path = folder.join(map::FILE);
    text.push_str(&format!("{}: {} bytes\n", file_called(&path), map.len()));
    files.push((path, map));
    files::folder(folder).map_err(Done::file)?;
    files::write(&files).map_err(Done::file)?;
    Ok(Done::fine(text))
}
