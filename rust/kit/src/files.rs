//! Files, read with a bound and written whole or not at all.

use crate::words::file_called;
use std::ffi::OsString;
use std::fs::{self, File, OpenOptions};
use std::io::{self, ErrorKind, Read, Write};
use std::path::{Path, PathBuf};

/// The most bytes of a description or of data that are read: more than enough for streams that are full.
pub const MOST_TEXT: usize = 4 << 20;

/// The most bytes of a stream that are read: one block more than a stream has, so that a longer one is
/// seen to be longer.
pub const MOST_STREAM: usize = feed::STREAM_MOST + feed::BLOCK;

/// Why a file can't be read or written, in words that begin with its name.
pub type FileResult<T> = Result<T, String>;

/// A file's bytes, if there are at most so many.
///
/// # Errors
/// It isn't there, can't be read, or is longer.
pub fn read(file: &Path, most: usize) -> FileResult<Vec<u8>> {
    let bytes = start(file, most + 1)?;
    match bytes.len() > most {
        true => Err(format!(
            "{}: this file has over {most} bytes, and no more are read",
            file_called(file)
        )),
        false => Ok(bytes),
    }
}

/// The first bytes of a file, so many at most.
///
/// # Errors
/// It isn't there or can't be read.
pub fn start(file: &Path, most: usize) -> FileResult<Vec<u8>> {
    let mut bytes = Vec::new();
    let most = u64::try_from(most).unwrap_or(u64::MAX);
    let read = File::open(file).and_then(|opened| opened.take(most).read_to_end(&mut bytes));
    match read {
        Ok(_) => Ok(bytes),
        Err(error) => Err(unreadable(file, &error)),
    }
}

fn unreadable(file: &Path, error: &io::Error) -> String {
    let name = file_called(file);
    match error.kind() {
        ErrorKind::NotFound => format!("{name}: there is no such file"),
        ErrorKind::IsADirectory => format!("{name}: {A_FOLDER}"),
        ErrorKind::PermissionDenied => format!("{name}: this file may not be read"),
        _ => format!("{name}: this file can't be read: {error}"),
    }
}

const A_FOLDER: &str = "this is a folder, and a file is expected";

fn unwritable(file: &Path, error: &io::Error) -> String {
    let name = file_called(file);
    let above = file.parent().filter(|it| !it.as_os_str().is_empty());
    let why = match above.is_some_and(|folder| !folder.exists()) {
        true => "there is no such folder".to_string(),
        false => cause(error),
    };
    format!("{name}: this can't be written: {why}")
}

/// Why something can't be written: in plain words where that happens to people, else in the system's.
pub fn cause(error: &io::Error) -> String {
    match error.kind() {
        ErrorKind::NotADirectory => "a part of its path is no folder".to_string(),
        ErrorKind::PermissionDenied => "that is not permitted".to_string(),
        ErrorKind::StorageFull => "there is no space left".to_string(),
        _ => error.to_string(),
    }
}

/// Makes a folder, unless it is there.
///
/// # Errors
/// It can't be made.
pub fn folder(folder: &Path) -> FileResult<()> {
    fs::create_dir_all(folder).map_err(|error| match error.kind() {
        ErrorKind::AlreadyExists => {
            let name = file_called(folder);
            format!("{name}: this is a file, and a folder is expected")
        }
        _ => unwritable(folder, &error),
    })
}

/// Whether two names are names of one file that is there.
pub fn are_one(file: &Path, other: &Path) -> bool {
    match (fs::canonicalize(file), fs::canonicalize(other)) {
        (Ok(file), Ok(other)) => file == other,
        _ => false,
    }
}

/// Writes files, all of them or none: each is written beside its place first, and they take their
/// places only when all are there. Whoever reads one meanwhile finds its old bytes or its new ones.
///
/// # Errors
/// One of them can't be written.
pub fn write(files: &[(PathBuf, Vec<u8>)]) -> FileResult<()> {
    let mut waiting = Waiting::default();
    for (file, bytes) in files {
        match is_device(file) {
            true => fs::write(file, bytes).map_err(|error| unwritable(file, &error))?,
            false => waiting.put(file, bytes)?,
        }
    }
    waiting.take_places()
}

/// Whether something that is no file is there, as a pipe, which can't be written beside its place.
fn is_device(file: &Path) -> bool {
    fs::metadata(file).is_ok_and(|found| !found.is_file() && !found.is_dir())
}

/// A file that is written beside its place.
struct Beside {
    file: PathBuf,
    place: PathBuf,
    beside: PathBuf,
}

/// Files that are written beside their places. What didn't take its place is removed.
#[derive(Default)]
struct Waiting {
    files: Vec<Beside>,
}

impl Waiting {
    fn put(&mut self, file: &Path, bytes: &[u8]) -> FileResult<()> {
        let place = place(file);
        // Told before any file takes its place: a folder would stand in the way of one of them.
        if place.is_dir() {
            return Err(format!("{}: {A_FOLDER}", file_called(file)));
        }
        let beside = beside(&place);
        let opened = OpenOptions::new()
            .write(true)
            .create_new(true)
            .open(&beside);
        let mut opened = opened.map_err(|error| unwritable(file, &error))?;
        keep_permissions(&place, &opened);
        let file = file.to_path_buf();
        let waiting = Beside {
            file,
            place,
            beside,
        };
        let written = opened.write_all(bytes).and_then(|()| opened.sync_all());
        let done = written.map_err(|error| unwritable(&waiting.file, &error));
        self.files.push(waiting);
        done
    }

    fn take_places(mut self) -> FileResult<()> {
        while let Some(first) = self.files.first() {
            let taken = fs::rename(&first.beside, &first.place);
            taken.map_err(|error| unwritable(&first.file, &error))?;
            self.files.remove(0);
        }
        Ok(())
    }
}

impl Drop for Waiting {
    fn drop(&mut self) {
        for waiting in &self.files {
            let _ = fs::remove_file(&waiting.beside);
        }
    }
}

/// A file that takes the place of another may be read by whom that one was read by.
fn keep_permissions(place: &Path, opened: &File) {
    if let Ok(old) = fs::metadata(place) {
        let _ = opened.set_permissions(old.permissions());
    }
}

/// Where a file's bytes come to stand: through a link it is the file that the link names, also if that
/// isn't there yet.
fn place(file: &Path) -> PathBuf {
    let named = || {
        let target = fs::read_link(file)?;
        Ok(file.with_file_name(target))
    };
    let found = fs::canonicalize(file).or_else(|_: io::Error| named());
    found.unwrap_or_else(|_: io::Error| file.to_path_buf())
}

/// A name in the same folder that no other process takes.
fn beside(place: &Path) -> PathBuf {
    let mut name = OsString::from(".");
    name.push(place.file_name().unwrap_or_default());
    name.push(format!(".{}.new", std::process::id()));
    place.with_file_name(name)
}
