//! `kit new DIR`

use super::{Done, Step, Words};
use crate::files;
use crate::words::file_called;

/// The files of a new folder.
const FILES: [(&str, &str); 2] = [
    ("feed.txt", include_str!("../starter/feed.txt")),
    ("data.json", include_str!("../starter/data.json")),
];

pub(super) fn run(words: &Words) -> Step<Done> {
    let folder = words.operand(0);
    let paths = FILES.map(|(name, text)| (folder.join(name), text.as_bytes().to_vec()));
    if let Some((there, _)) = paths.iter().find(|(path, _)| path.exists()) {
        let why = format!(
            "{}: this is there already, and stays as it is",
            file_called(there)
        );
        return Err(Done::file(why));
    }
    files::folder(folder).map_err(Done::file)?;
    files::write(&paths).map_err(Done::file)?;
    let [feed, data] = paths.map(|(path, _)| file_called(&path));
    Ok(Done::fine(format!(
        "{feed}: the description\n{data}: its data\n`kit render {feed} {data}` prints the feed\n"
    )))
}
