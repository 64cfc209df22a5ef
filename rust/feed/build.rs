//! Links the static library of the Rattle crate `feed_c`, and has `tools/staticlib` make it if it isn't
//! there.
//!
//! `FEED_STATICLIB_DIR` names another folder that holds `libfeed.a`, for a machine without `rt`.

use std::env;
use std::path::{Path, PathBuf};
use std::process::Command;

const ARCHIVE: &str = "libfeed.a";
const FOLDER_VARIABLE: &str = "FEED_STATICLIB_DIR";

/// The script that makes the archive, and its status where there is no `rt`.
const MAKER: &str = "tools/staticlib";
const NO_RT: i32 = 127;

fn main() {
    println!("cargo::rerun-if-env-changed={FOLDER_VARIABLE}");
    let folder = match env::var_os(FOLDER_VARIABLE) {
        Some(folder) => given(PathBuf::from(folder)),
        None => made(&repository()),
    };
    println!("cargo::rerun-if-changed={}", folder.join(ARCHIVE).display());
    println!("cargo::rustc-link-search=native={}", folder.display());
    println!("cargo::rustc-link-lib=static=feed");
}

/// The folder with `crates.txt`, two above this crate.
fn repository() -> PathBuf {
    let here =
        PathBuf::from(env::var_os("CARGO_MANIFEST_DIR").expect("cargo names the crate's folder"));
    let above = here
        .ancestors()
        .find(|folder| folder.join("crates.txt").is_file());
    match above {
        Some(folder) => folder.to_path_buf(),
        None => fail(&format!(
            "no folder above {} has a crates.txt: this crate stands in the page machine's repository, \
             or is told by {FOLDER_VARIABLE} where {ARCHIVE} is",
            here.display()
        )),
    }
}

/// The folder that the environment names: it must hold the archive.
fn given(folder: PathBuf) -> PathBuf {
    if !folder.join(ARCHIVE).is_file() {
        fail(&format!(
            "{FOLDER_VARIABLE} is {}, and there is no {ARCHIVE} in it",
            folder.display()
        ));
    }
    folder
}

/// The folder where `tools/staticlib` puts the archive; it is run if the archive isn't there.
fn made(repository: &Path) -> PathBuf {
    let folder = repository.join("target").join("staticlib");
    if !folder.join(ARCHIVE).is_file() {
        make(repository);
    }
    if !folder.join(ARCHIVE).is_file() {
        fail(&format!(
            "`{MAKER}` made no {}",
            folder.join(ARCHIVE).display()
        ));
    }
    folder
}

fn make(repository: &Path) {
    let run = Command::new(repository.join(MAKER))
        .current_dir(repository)
        .output();
    match run {
        Ok(output) if output.status.success() => {}
        Ok(output) if output.status.code() == Some(NO_RT) => fail(&format!(
            "the static library isn't built, and `rt`, the Rattle toolchain that builds it, is not on the PATH. \
             Put it there, or let {FOLDER_VARIABLE} name a folder that holds {ARCHIVE}"
        )),
        Ok(output) => fail(&format!(
            "`{MAKER}` failed ({}):\n{}{}",
            output.status,
            String::from_utf8_lossy(&output.stdout),
            String::from_utf8_lossy(&output.stderr)
        )),
        Err(error) => fail(&format!("`{MAKER}` could not be run: {error}")),
    }
}

/// Ends the build with a message that cargo shows as it stands.
fn fail(message: &str) -> ! {
    for line in message.lines() {
        println!("cargo::error={line}");
    }
    std::process::exit(1)
}
