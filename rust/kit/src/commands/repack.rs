//! `kit repack FILE.blk` and `kit repack DIR`

use super::{Done, Step, Words};
use crate::files::{self, MOST_STREAM};
use crate::streams::record::Kind;
use crate::streams::repack::{repack, Repacked};
use crate::words::file_called;
use std::path::PathBuf;

/// Packs a stream or the three of a folder anew. If one of them is refused, all stay as they are.
pub(super) fn run(words: &Words) -> Step<Done> {
    let place = words.operand(0);
    let files: Vec<(PathBuf, Option<Kind>)> = match place.is_dir() {
        true => Kind::ALL
            .map(|kind| (place.join(kind.file()), Some(kind)))
            .to_vec(),
        false => vec![(place.to_path_buf(), None)],
    };
    let (mut anew, mut text) = (Vec::new(), String::new());
    for (file, kind) in files {
        let name = file_called(&file);
        let bytes = files::start(&file, MOST_STREAM).map_err(Done::file)?;
        match repack(&bytes, kind) {
            Ok(Repacked::Kept) => text.push_str(&format!("{name}: kept, its checks are right\n")),
            Ok(Repacked::Anew(blocks)) => {
                text.push_str(&format!("{name}: packed anew, {} bytes\n", blocks.len()));
                anew.push((file, blocks));
            }
            Err(why) => {
                let why: String = why
                    .lines()
                    .map(|line| format!("{name}: {line}\n"))
                    .collect();
                return Err(Done::refused(format!("{why}nothing is packed anew\n")));
            }
        }
    }
    files::write(&anew).map_err(Done::file)?;
    Ok(Done::fine(text))
}
