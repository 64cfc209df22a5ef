//! Runs a command, and holds what it does against what every command promises.

use super::tally::Tally;
use kit::commands::Done;
use std::collections::BTreeMap;
use std::ffi::OsString;
use std::fs;
use std::panic::{catch_unwind, AssertUnwindSafe};
use std::path::{Path, PathBuf};
use std::sync::Mutex;

/// The most bytes that a command says, and that it prints beside what grows with its input.
const MOST_SAID: usize = 64 << 10;

/// The most bytes that `dump` prints for a record: a line has an index (13), up to 40 levels (80) or the
/// depth in words, at most two names of 60 characters (4 bytes each, and quotes), some 100 of its own and
/// a place of two numbers; a record has up to 7 marks of at most 100 bytes. A text has up to 5 bytes for
/// each of its bytes, 40 for a record. The marks of a block come to less than 30 for each of its 63.
const DUMPED: usize = 1536;

/// The records that `dump` reads: those of 129 blocks, one more than a stream has.
const DUMPED_RECORDS: usize = 129 * 63;

/// The most bytes that `size` prints for a list: its path of up to 200 characters, and three numbers.
const SIZED: usize = 1024;

/// Where the hook of a panic leaves its words.
pub static PANIC: Mutex<String> = Mutex::new(String::new());

/// What was wrong with a run.
pub type Held<T> = Result<T, String>;

pub struct Runner<'a> {
    pub tally: &'a mut Tally,
    /// Whether each run is told of.
    pub loud: bool,
    files: Files,
}

/// The files of the case's folder, with their bytes.
type Files = BTreeMap<PathBuf, Vec<u8>>;

impl<'a> Runner<'a> {
    /// A runner in the current folder.
    pub fn new(tally: &'a mut Tally, loud: bool) -> Self {
        let files = Files::new();
        Self { tally, loud, files }
    }

    /// Runs a command, and holds it against its promises.
    ///
    /// # Errors
    /// The promise that isn't kept.
    pub fn run(&mut self, words: &[OsString]) -> Held<Done> {
        let command = words.first().map_or("", |it| it.to_str().unwrap_or(""));
        self.files = files();
        let done = catch_unwind(AssertUnwindSafe(|| kit::commands::run(words)));
        let said = || PANIC.lock().map(|it| it.clone()).unwrap_or_default();
        let done = done.map_err(|_| format!("{} panics: {}", told(words), said()))?;
        if self.loud {
            let (status, out, err) = (done.status, done.out.len(), done.err.len());
            println!(
                "{} -> {status}, prints {out} bytes, says {err}",
                told(words)
            );
        }
        let name = if kit::commands::COMMANDS.iter().any(|it| it.name == command) {
            command
        } else {
            "(none)"
        };
        self.tally.count(name, &done);
        self.held(command, words, &done)
            .map_err(|why| format!("{}: {why}\n{}", told(words), excerpt(&done)))?;
        Ok(done)
    }

    fn held(&self, command: &str, words: &[OsString], done: &Done) -> Held<()> {
        holds(done.status <= 2, "the status is above 2")?;
        holds(done.err.len() <= MOST_SAID, "over 64 KiB are said")?;
        let most = MOST_SAID + grows(command, words);
        holds(done.out.len() <= most, "more is printed than is bounded")?;
        holds(visible(&done.err), "a control character is said")?;
        let is_text = command == "render" && done.status == 0;
        let out = std::str::from_utf8(&done.out);
        holds(
            is_text || out.is_ok_and(visible),
            "a control character is printed",
        )?;
        let reports = ["explain", "dump", "lint"].contains(&command) && !done.out.is_empty();
        let tells = done.status == 0 || !done.err.is_empty() || reports;
        holds(tells, "it fails without a word")?;
        let notes = ["explain", "dump"].contains(&command); // a map that can't be used
        let quiet = done.status != 0 || done.err.is_empty() || notes;
        holds(quiet, "it is done, and complains")?;
        self.files_held(command, done)
    }

    /// What fails changes no file, and no file beside another one's place stays.
    fn files_held(&self, command: &str, done: &Done) -> Held<()> {
        let now = files();
        let differs = |name: &&PathBuf| now.get(*name) != self.files.get(*name);
        let names = now
            .keys()
            .chain(self.files.keys().filter(|it| !now.contains_key(*it)));
        let changed: Vec<&PathBuf> = names.filter(differs).collect();
        let most = match (done.status, command) {
            (0, "new") => 2,
            (0, "assemble") => 4,
            (0, "repack") => 3,
            (0, "value" | "render") => 1,
            _ => 0,
        };
        holds(
            changed.len() <= most,
            &format!("these files changed: {changed:?}"),
        )?;
        let waits = |it: &&PathBuf| it.extension().is_some_and(|it| it == "new");
        match now.keys().find(waits) {
            Some(file) => Err(format!("{} stays behind", file.display())),
            None => Ok(()),
        }
    }
}

/// The bytes that a command may print beside the usual ones, by its input.
fn grows(command: &str, words: &[OsString]) -> usize {
    match command {
        "render" => lent_output(words),
        "dump" => DUMPED_RECORDS * DUMPED,
        "size" => kit::streams::record::STREAM_RECORDS * SIZED,
        _ => 0,
    }
}

/// The output that a command is lent.
fn lent_output(words: &[OsString]) -> usize {
    let behind = words.windows(2).filter(|it| it[0] == "--output");
    let numbers = behind.filter_map(|it| it[1].to_str()?.parse().ok());
    numbers.max().unwrap_or(0).max(65_536)
}

/// Whether a text has no control character but the ends of its lines.
fn visible(text: &str) -> bool {
    !text.chars().any(|it| it.is_control() && it != '\n')
}

/// A promise, in words for when it isn't kept.
pub fn holds(kept: bool, broken: &str) -> Held<()> {
    match kept {
        true => Ok(()),
        false => Err(broken.to_string()),
    }
}

fn told(words: &[OsString]) -> String {
    let row: Vec<String> = words.iter().map(|it| format!("{it:?}")).collect();
    kit::words::cut(&format!("kit {}", row.join(" ")), 300)
}

/// The beginning of what a command said and printed.
fn excerpt(done: &Done) -> String {
    let out = format!("{:?}", String::from_utf8_lossy(&done.out));
    let (out, err) = (
        kit::words::cut(&out, 1500),
        kit::words::cut(&format!("{:?}", done.err), 1500),
    );
    format!("  status {}\n  out {out}\n  err {err}", done.status)
}

/// All files below the current folder.
fn files() -> Files {
    let mut found = Files::new();
    gather(Path::new("."), &mut found);
    found
}

fn gather(folder: &Path, found: &mut Files) {
    let Ok(entries) = fs::read_dir(folder) else {
        return;
    };
    for entry in entries.flatten() {
        let path = entry.path();
        match path.is_dir() {
            true => gather(&path, found),
            false => drop(found.insert(path.clone(), fs::read(&path).unwrap_or_default())),
        }
    }
}
