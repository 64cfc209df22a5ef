//! The one file that a command writes.

use super::table::misused;
use super::{Done, Step};
use crate::files;
use crate::words::{file_called, named};
use std::path::Path;

/// The file must be none of those that are read: it would be gone.
pub(super) fn unread<'a>(
    command: &str,
    what: &str,
    inputs: impl IntoIterator<Item = &'a Path>,
    out: &Path,
) -> Step<()> {
    match inputs.into_iter().any(|input| files::are_one(input, out)) {
        false => Ok(()),
        true => {
            let word = named(&file_called(out));
            let message = format!("{what} is {word}, which is read here");
            Err(misused(command, &message))
        }
    }
}

/// Writes the file, and says how long it is.
pub(super) fn written(out: &Path, bytes: Vec<u8>) -> Step<Done> {
    let text = format!("{}: {} bytes\n", file_called(out), bytes.len());
    files::write(&[(out.to_path_buf(), bytes)]).map_err(Done::file)?;
    Ok(Done::fine(text))
}
