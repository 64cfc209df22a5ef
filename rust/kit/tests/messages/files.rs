//! Files that are read and written: what is said if that fails, and that they are written whole or not at
//! all. Nothing here goes by permissions, which don't bind the superuser.

use super::desk::{changed, desk, desk_with, Desk, Said, PAGE};
use std::fs;
use std::os::unix::fs::{symlink, PermissionsExt};

const DATA: &str = "{\"title\": \"ab\", \"entries\": []}";

/// The page, its value, and data.
#[track_caller]
fn page() -> Desk {
    desk_with(changed("", "")).with("data.json", DATA)
}

const VALUE: [&str; 3] = ["value", "feed.txt", "data.json"];

fn value_into(desk: &Desk, out: &str) -> Said {
    desk.kit(&[VALUE.as_slice(), &[out]].concat())
}

#[test]
fn a_missing_file() {
    for words in [
        ["check", "no.txt"],
        ["render", "no.txt"],
        ["lint", "no.txt"],
        ["size", "no.txt"],
        ["dump", "no.txt"],
        ["repack", "no.txt"],
    ] {
        desk()
            .kit(&words)
            .failed("kit: no.txt: there is no such file\n");
    }
    page()
        .kit(&["check", "feed.txt", "no.json"])
        .failed("kit: no.json: there is no such file\n");
}

#[test]
fn a_folder_where_a_file_is_expected() {
    desk()
        .kit(&["check", "."])
        .failed("kit: .: this is a folder, and a file is expected\n");
}

#[test]
fn a_file_where_a_folder_is_expected() {
    page()
        .kit(&["explain", "feed.txt"])
        .failed("kit: feed.txt: this is a file, and a folder is expected\n");
    page()
        .kit(&["assemble", "feed.txt", "data.json"])
        .failed("kit: data.json: this is a file, and a folder is expected\n");
    page()
        .kit(&["assemble", "feed.txt", "data.json/set"])
        .failed("kit: data.json/set: this can't be written: a part of its path is no folder\n");
    page()
        .kit(&["new", "data.json"])
        .failed("kit: data.json: this is a file, and a folder is expected\n");
}

#[test]
fn explain_of_a_missing_folder_and_of_missing_files() {
    let desk = desk();
    desk.kit(&["explain", "set"])
        .failed("kit: set: there is no such folder\n");
    fs::create_dir(desk.path("set")).expect("a folder");
    desk.kit(&["explain", "set"])
        .failed("kit: set/grammar.blk: there is no such file\n");
}

/// A file that is there and can't be read is no empty one. What is read here is a process's own memory,
/// whose first bytes nobody may read.
#[test]
fn explain_of_a_file_that_can_not_be_read() {
    let desk = desk();
    symlink("/proc/self/mem", desk.path("grammar.blk")).expect("a link");
    desk.kit(&["explain", "."])
        .failed("kit: ./grammar.blk: this file can't be read: Input/output error (os error 5)\n");
}

#[test]
fn explain_of_empty_files() {
    let desk = desk()
        .with("grammar.blk", "")
        .with("template.blk", "")
        .with("value.blk", "");
    desk.kit(&["explain", "."]).reported(
        r#"
check: the grammar: the length is zero, above 65,536 or no multiple of 512 (refusal 1)
    "A stream's length is zero, above 65,536 or no multiple of 512."
  grammar.blk has 0 bytes
evaluate: the same refusal
"#,
    );
}

#[test]
fn a_file_that_is_too_long() {
    let desk = desk_with("#".repeat((4 << 20) + 1));
    desk.kit(&["check", "feed.txt"])
        .failed("kit: feed.txt: this file has over 4194304 bytes, and no more are read\n");
}

#[test]
fn output_that_can_not_be_written() {
    let desk = page();
    for words in [
        &["render", "feed.txt"] as &[&str],
        &["check", "feed.txt"],
        &["size", "feed.txt"],
        &["--help"],
        &["--version"],
        &["check", "--help"],
    ] {
        desk.kit_into_full(words)
            .failed("kit: the output can't be written: there is no space left\n");
    }
}

/// What is refused can't be said, and the status tells of that.
#[test]
fn words_that_can_not_be_written() {
    let desk = desk_with("class");
    assert_eq!(desk.status_into_full(&["check", "feed.txt"]), Some(2));
    assert_eq!(desk.kit(&["check", "feed.txt"]).status, Some(1));
}

/// The stream is there then, and what would be said of it is not.
#[test]
fn a_file_is_written_and_the_word_about_it_is_not() {
    let desk = page();
    let said = desk.kit_into_full(&[VALUE.as_slice(), &["value.blk"]].concat());
    said.failed("kit: the output can't be written: there is no space left\n");
    assert_eq!(desk.read("value.blk").len(), 512);
}

#[test]
fn a_stream_into_a_full_device() {
    value_into(&page(), "/dev/full")
        .failed("kit: /dev/full: this can't be written: there is no space left\n");
}

#[test]
fn a_stream_into_a_device() {
    value_into(&page(), "/dev/null").done("/dev/null: 512 bytes\n");
}

#[test]
fn a_stream_into_a_folder_that_is_not_there() {
    value_into(&page(), "no/value.blk")
        .failed("kit: no/value.blk: this can't be written: there is no such folder\n");
}

/// Nobody makes files there: to the superuser the system has no such file, to others it is not permitted.
#[test]
fn a_stream_into_a_folder_that_can_not_be_written() {
    let desk = page();
    for (said, name) in [
        (value_into(&desk, "/proc/value.blk"), "/proc/value.blk"),
        (
            desk.kit(&["assemble", "feed.txt", "/proc/set"]),
            "/proc/set",
        ),
    ] {
        let words = |why| format!("kit: {name}: this can't be written: {why}\n");
        let either = [
            words("No such file or directory (os error 2)"),
            words("that is not permitted"),
        ];
        assert!(either.contains(&said.err), "{}", said.err);
        assert_eq!((said.status, said.out.as_str()), (Some(2), ""));
    }
}

#[test]
fn a_stream_where_a_folder_stands() {
    let desk = page();
    fs::create_dir(desk.path("value.blk")).expect("a folder");
    value_into(&desk, "value.blk")
        .failed("kit: value.blk: this is a folder, and a file is expected\n");
    assert_eq!(desk.names("."), ["data.json", "feed.txt", "value.blk"]);
}

/// One of four can't be written: the others stay as they were.
#[test]
fn all_files_are_written_or_none() {
    let desk = page();
    fs::create_dir_all(desk.path("set/value.blk")).expect("a folder");
    let desk = desk.with("set/grammar.blk", "old");
    desk.kit(&["assemble", "feed.txt", "set"])
        .failed("kit: set/value.blk: this is a folder, and a file is expected\n");
    assert_eq!(desk.names("set"), ["grammar.blk", "value.blk"]);
    assert_eq!(desk.read("set/grammar.blk"), b"old");
}

/// What is refused leaves the file as it was.
#[test]
fn a_refused_value_leaves_the_file() {
    let desk = desk_with(PAGE)
        .with("data.json", "{}")
        .with("value.blk", "old");
    assert_eq!(value_into(&desk, "value.blk").status, Some(1));
    assert_eq!(desk.read("value.blk"), b"old");
    assert_eq!(desk.names("."), ["data.json", "feed.txt", "value.blk"]);
}

/// Through a link the file that it names is written, and the link stays one.
#[test]
fn a_link_as_output() {
    let desk = page().with("there.blk", "old");
    symlink("there.blk", desk.path("link.blk")).expect("a link");
    symlink("fresh.blk", desk.path("dangling.blk")).expect("a link");
    value_into(&desk, "link.blk").done("link.blk: 512 bytes\n");
    value_into(&desk, "dangling.blk").done("dangling.blk: 512 bytes\n");
    for (link, file) in [("link.blk", "there.blk"), ("dangling.blk", "fresh.blk")] {
        assert!(desk.path(link).is_symlink());
        assert!(!desk.path(file).is_symlink());
        assert_eq!(desk.read(file).len(), 512);
    }
}

#[test]
fn new_makes_a_feed_that_renders() {
    let desk = desk();
    desk.kit(&["new", "my"]).done(
        r#"
my/feed.txt: the description
my/data.json: its data
`kit render my/feed.txt my/data.json` prints the feed
"#,
    );
    assert_eq!(desk.names("my"), ["data.json", "feed.txt"]);
    let said = desk.kit(&["render", "my/feed.txt", "my/data.json"]);
    assert!(said.out.starts_with("<?xml ") && said.status == Some(0));
    let desk = desk.with("my/feed.txt", "mine");
    desk.kit(&["new", "my"])
        .failed("kit: my/feed.txt: this is there already, and stays as it is\n");
    assert_eq!(desk.read("my/feed.txt"), b"mine");
}

/// What is read isn't overwritten.
#[test]
fn a_stream_into_the_data_that_it_is_made_of() {
    let desk = page();
    value_into(&desk, "./data.json").failed(
        r#"
kit value: OUT.blk is `./data.json`, which is read here
usage: kit value FILE DATA.json OUT.blk
`kit value --help` says more
"#,
    );
    assert_eq!(desk.read("data.json"), DATA.as_bytes());
    assert_eq!(value_into(&desk, "feed.txt").status, Some(2));
}

#[test]
fn a_text_in_a_file() {
    let page = page();
    let words = ["render", "feed.txt", "data.json", "--to", "page.xml"];
    page.kit(&words).done("page.xml: 5 bytes\n");
    let text = page.read("page.xml");
    assert_eq!(text, page.kit(&words[..3]).out.as_bytes());
    let page = page.with("data.json", "{}");
    assert_eq!(page.kit(&words).status, Some(1));
    assert_eq!(page.read("page.xml"), text);
}

#[test]
fn a_text_never_takes_the_place_of_what_it_comes_from() {
    page()
        .kit(&["render", "feed.txt", "data.json", "--to", "./data.json"])
        .failed(
            "kit render: --to is `./data.json`, which is read here\n\
             usage: kit render FILE [DATA.json] [--to OUT] [--fuel N] [--output N] [--scratch N]\n\
             `kit render --help` says more\n",
        );
}

/// A file that is replaced may be read by whom it was read by.
#[test]
fn permissions_stay() {
    let page = page().with("value.blk", "old");
    let of = |mode| fs::Permissions::from_mode(mode);
    fs::set_permissions(page.path("value.blk"), of(0o640)).expect("permissions");
    assert_eq!(value_into(&page, "value.blk").status, Some(0));
    let found = fs::metadata(page.path("value.blk")).expect("a file");
    assert_eq!(found.permissions().mode() & 0o777, 0o640);
}
