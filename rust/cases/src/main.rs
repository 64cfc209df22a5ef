//! `cases`: writes the cases of the program `vectors`, and the lines that it is to print.

#![forbid(unsafe_code)]

use std::process::ExitCode;
use std::{fs, io, path::Path};

fn main() -> ExitCode {
    for (path, bytes) in cases::files() {
        if let Err(error) = write(&path, &bytes) {
            eprintln!("cases: {}: {error}", path.display());
            return ExitCode::FAILURE;
        }
        println!("{}: {} bytes", path.display(), bytes.len());
    }
    ExitCode::SUCCESS
}

fn write(path: &Path, bytes: &[u8]) -> io::Result<()> {
    if let Some(folder) = path.parent() {
        fs::create_dir_all(folder)?;
    }
    fs::write(path, bytes)
}
