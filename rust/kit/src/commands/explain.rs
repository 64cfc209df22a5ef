//! `kit explain DIR`

use super::{beside, Done, Step, Words};
use crate::assembly::map::Guide;
use crate::files::{self, MOST_STREAM};
use crate::reasons::explain::{explain_with, Set};
use crate::streams::record::Kind;
use crate::words::file_called;

pub(super) fn run(words: &Words) -> Step<Done> {
    let folder = words.operand(0);
    if !folder.is_dir() {
        let why = match folder.exists() {
            true => "this is a file, and a folder is expected",
            false => "there is no such folder",
        };
        return Err(Done::file(format!("{}: {why}", file_called(folder))));
    }
    let stream =
        |kind: Kind| files::start(&folder.join(kind.file()), MOST_STREAM).map_err(Done::file);
    let (grammar, templates) = (stream(Kind::Grammar)?, stream(Kind::Templates)?);
    let value = stream(Kind::Value)?;
    let set = Set {
        grammar: &grammar,
        templates: &templates,
        value: &value,
    };
    let mapped = [
        (Kind::Grammar, set.grammar),
        (Kind::Templates, set.templates),
    ];
    let (map, note) = beside::map(folder, &mapped);
    let guide = map.as_ref().map(Guide::of).unwrap_or_default();
    let explanation = explain_with(set, words.lent, &guide);
    Ok(Done {
        err: note,
        ..Done::report(explanation.text, explanation.finished)
    })
}
