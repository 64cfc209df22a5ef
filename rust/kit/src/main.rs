//! `kit`: the page machine's kit for designers.

#![forbid(unsafe_code)]

use std::ffi::OsString;
use std::io::{self, Write};
use std::process::ExitCode;

fn main() -> ExitCode {
    let words: Vec<OsString> = std::env::args_os().skip(1).collect();
    let done = kit::commands::run(&words);
    let printed = print(io::stdout(), &done.out);
    let said = print(io::stderr(), done.err.as_bytes());
    if let Err(error) = &printed {
        // If this can't be written either, the status still tells.
        let why = kit::files::cause(error);
        let _ = writeln!(io::stderr(), "kit: the output can't be written: {why}");
    }
    match (said, printed) {
        (Ok(()), Ok(())) => ExitCode::from(done.status),
        _ => ExitCode::from(2),
    }
}

fn print(mut to: impl Write, text: &[u8]) -> io::Result<()> {
    to.write_all(text)?;
    to.flush()
}
