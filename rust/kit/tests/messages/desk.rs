//! A fresh folder in which the tool is run, as a designer runs it: file names stand in its messages as
//! they were given.

use std::ffi::OsStr;
use std::fs::{self, File};
use std::panic::Location;
use std::path::{Path, PathBuf};
use std::process::{Command, Output, Stdio};

/// A small page: a title, and a line for each entry. It has no value, and [`VALUE`] is one for it.
pub const PAGE: &str = r#"class word 1 to 8 { 'a'-'z' U+0370-U+03FF }
class safe = escaped word

production page of page = "<" word ">" item*(", ") "."
production entry of item = "(" word ")"
production note of item = "!" safe

type word = text word
type flag = yesno
type entry = record { word: word, loud: flag }
type entries = list entry
type page = record { title: word, entries: entries }

template main (page: page) of page =
  build page (
    place page.title
    sequence (
      for entry in page.entries do expand line (entry)
    )
  )
template line (entry: entry) of item =
  if entry.loud then build note (place entry.word) else build entry (place entry.word)
"#;

/// A value for the page.
pub const VALUE: &str = r#"
value { title: "αβ" entries: [ { word: "ab" loud: no } { word: "cd" loud: yes } ] }
"#;

/// A fresh folder.
pub struct Desk(PathBuf);

/// A fresh folder, which has its name from the place in the tests where it is asked for.
#[track_caller]
pub fn desk() -> Desk {
    let caller = Location::caller();
    let file = Path::new(caller.file()).file_stem().expect("a name");
    let name = format!("{}-{}", file.display(), caller.line());
    let folder = Path::new(env!("CARGO_TARGET_TMPDIR")).join("messages");
    let folder = folder.join(name);
    let _ = fs::remove_dir_all(&folder);
    fs::create_dir_all(&folder).expect("a folder");
    Desk(folder)
}

/// A folder with a description in `feed.txt`.
#[track_caller]
pub fn desk_with(description: impl AsRef<[u8]>) -> Desk {
    desk().with("feed.txt", description)
}

/// The page and its value, with another part.
pub fn changed(from: &str, to: &str) -> String {
    let page = format!("{PAGE}{VALUE}");
    assert!(page.contains(from), "{from}");
    page.replacen(from, to, 1)
}

impl Desk {
    /// The folder with a file in it.
    pub fn with(self, name: &str, bytes: impl AsRef<[u8]>) -> Self {
        fs::write(self.path(name), bytes).expect("written");
        self
    }

    /// A file's bytes.
    pub fn read(&self, name: &str) -> Vec<u8> {
        fs::read(self.path(name)).expect("a file")
    }

    /// Where a file of the folder is.
    pub fn path(&self, name: &str) -> PathBuf {
        self.0.join(name)
    }

    /// The names of all that is in a folder of it.
    pub fn names(&self, folder: &str) -> Vec<String> {
        let entries = fs::read_dir(self.path(folder)).expect("a folder");
        let name = |entry: fs::DirEntry| entry.file_name().to_string_lossy().into_owned();
        let mut names: Vec<String> = entries.map(|it| name(it.expect("an entry"))).collect();
        names.sort();
        names
    }

    /// Runs the tool with these words.
    pub fn kit<S: AsRef<OsStr>>(&self, words: &[S]) -> Said {
        Said::of(self.command(words).output().expect("kit runs"))
    }

    /// Runs the tool, whose standard output is a device that is full.
    pub fn kit_into_full(&self, words: &[&str]) -> Said {
        let output = self.command(words).stdout(full()).output();
        Said::of(output.expect("kit runs"))
    }

    /// The exit status of the tool, whose words go to a device that is full.
    pub fn status_into_full(&self, words: &[&str]) -> Option<i32> {
        let output = self.command(words).stderr(full()).output();
        output.expect("kit runs").status.code()
    }

    fn command<S: AsRef<OsStr>>(&self, words: &[S]) -> Command {
        let mut command = Command::new(env!("CARGO_BIN_EXE_kit"));
        command.args(words).current_dir(&self.0);
        command
    }
}

/// A device that is always full.
fn full() -> Stdio {
    let full = File::options().write(true).open("/dev/full");
    Stdio::from(full.expect("a device"))
}

/// What the tool said.
#[derive(Debug)]
pub struct Said {
    /// The exit status.
    pub status: Option<i32>,
    /// What it printed.
    pub out: String,
    /// What it said beside that.
    pub err: String,
}

impl Said {
    fn of(output: Output) -> Self {
        let text = |bytes: Vec<u8>| String::from_utf8_lossy(&bytes).into_owned();
        Self {
            status: output.status.code(),
            out: text(output.stdout),
            err: text(output.stderr),
        }
    }

    /// It is done, and this is printed.
    #[track_caller]
    pub fn done(&self, out: &str) {
        self.is(0, out, "");
    }

    /// It is refused, with these words.
    #[track_caller]
    pub fn refused(&self, err: &str) {
        self.is(1, "", err);
    }

    /// A report is printed that tells of something wrong.
    #[track_caller]
    pub fn reported(&self, out: &str) {
        self.is(1, out, "");
    }

    /// It is used wrongly, or a file can't be read or written.
    #[track_caller]
    pub fn failed(&self, err: &str) {
        self.is(2, "", err);
    }

    /// Status, output and words; a line break before the texts is passed over.
    #[track_caller]
    pub fn is(&self, status: i32, out: &str, err: &str) {
        let text = |text: &str| text.strip_prefix('\n').unwrap_or(text).to_string();
        assert_eq!(self.out, text(out), "{}", self.err);
        assert_eq!(self.err, text(err), "{}", self.out);
        assert_eq!(self.status, Some(status));
    }
}
