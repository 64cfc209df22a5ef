//! The page of the description's language: what it shows of the kit is what the kit says.

use std::fs;
use std::path::{Path, PathBuf};
use std::process::{Command, Output};

/// The repository.
fn root() -> PathBuf {
    Path::new(env!("CARGO_MANIFEST_DIR")).join("../..")
}

fn kit(words: &[&str], folder: &Path) -> Output {
    Command::new(env!("CARGO_BIN_EXE_kit"))
        .args(words)
        .current_dir(folder)
        .output()
        .expect("kit runs")
}

/// A fresh folder for a test.
fn folder(name: &str) -> PathBuf {
    let folder = Path::new(env!("CARGO_TARGET_TMPDIR")).join(name);
    let _ = fs::remove_dir_all(&folder);
    fs::create_dir_all(&folder).expect("a folder");
    folder
}

/// The fenced part of the page that begins so.
fn fenced(beginning: &str) -> String {
    let page = fs::read_to_string(root().join("rust/kit/FORMAT.md")).expect("the page");
    let parts: Vec<&str> = page
        .split("```\n")
        .filter(|part| part.starts_with(beginning))
        .collect();
    assert_eq!(parts.len(), 1, "{beginning}");
    parts[0].to_string()
}

#[test]
fn a_refusal_of_a_description() {
    let folder = folder("page_refusal");
    let feed = fs::read_to_string(root().join("examples/harbour/feed.txt")).expect("a description");
    let literal = feed.replace("(place title)", "(literal \"AB\")");
    fs::write(folder.join("feed.txt"), literal).expect("written");
    let output = kit(&["check", "feed.txt"], &folder);
    assert_eq!(output.status.code(), Some(1));
    assert_eq!(String::from_utf8_lossy(&output.stderr), fenced("feed.txt:"));
}

#[test]
fn a_mistake_in_data() {
    let folder = folder("page_data");
    assert_eq!(kit(&["new", "."], &folder).status.code(), Some(0));
    let data = fs::read_to_string(folder.join("data.json")).expect("data");
    let pasted = data.replacen("Salt & Rope", "Salt\\u000b & Rope", 1);
    assert_ne!(pasted, data);
    fs::write(folder.join("data.json"), pasted).expect("written");
    let output = kit(&["check", "feed.txt", "data.json"], &folder);
    assert_eq!(output.status.code(), Some(1));
    assert_eq!(
        String::from_utf8_lossy(&output.stderr),
        fenced("data.json:")
    );
}

/// The commands that the page shows, run from the top of the repository, print what it shows.
#[test]
fn commands_that_are_shown() {
    for command in fenced("$ kit check examples").split("$ kit ").skip(1) {
        let (line, shown) = command.split_once('\n').expect("a line");
        let words: Vec<&str> = line.split(' ').collect();
        let output = kit(&words, &root());
        assert_eq!(output.status.code(), Some(0), "{line}");
        let printed = String::from_utf8(output.stdout).expect("UTF-8");
        assert_eq!(printed.trim_end(), shown.trim_end(), "{line}");
    }
}

/// A line of the page about maps is one of the podcast's map, and each command has its row.
#[test]
fn the_map_and_the_commands() {
    let map = fs::read_to_string(root().join("examples/podcast/map.json")).expect("a map");
    assert!(map.contains(fenced("{\"line\"").trim()));
    let page = fs::read_to_string(root().join("rust/kit/FORMAT.md")).expect("the page");
    for command in kit::commands::COMMANDS {
        let row = format!(
            "| `kit {} {}",
            command.name,
            command.operands[0].split(' ').next().unwrap_or("")
        );
        assert!(page.contains(&row), "{row}");
    }
}
