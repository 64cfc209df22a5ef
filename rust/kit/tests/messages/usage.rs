//! How the tool is called: its commands, operands and options, and what it says of a wrong use.

use super::desk::{changed, desk, desk_with, Said};
use std::ffi::OsStr;
use std::os::unix::ffi::OsStrExt;

#[track_caller]
fn kit(words: &[&str]) -> Said {
    desk().kit(words)
}

#[test]
fn no_command() {
    kit(&[]).failed(
        r#"
kit: a command is missing
`kit --help` lists the commands
"#,
    );
}

#[test]
fn an_unknown_command() {
    kit(&["chekc", "feed.txt"]).failed(
        r#"
kit: there is no command `chekc`: did you mean `check`?
`kit --help` lists the commands
"#,
    );
    kit(&["mend"]).failed(
        r#"
kit: there is no command `mend`
`kit --help` lists the commands
"#,
    );
    kit(&["help", "chekc"]).failed(
        r#"
kit: there is no command `chekc`: did you mean `check`?
`kit --help` lists the commands
"#,
    );
}

#[test]
fn an_unknown_command_is_shown_with_escapes_and_cut() {
    kit(&["\u{1b}[2J"]).failed(
        r#"
kit: there is no command `\u{1b}[2J`
`kit --help` lists the commands
"#,
    );
    let said = kit(&["x".repeat(100_000).as_str()]);
    assert_eq!(said.status, Some(2));
    assert!(said.err.len() < 200, "{}", said.err.len());
}

#[test]
fn a_missing_word() {
    kit(&["check"]).failed(
        r#"
kit check: FILE is missing
usage: kit check FILE [DATA.json] [--fuel N] [--output N] [--scratch N]
`kit check --help` says more
"#,
    );
    kit(&["value", "feed.txt", "data.json"]).failed(
        r#"
kit value: OUT.blk is missing
usage: kit value FILE DATA.json OUT.blk
`kit value --help` says more
"#,
    );
    kit(&["repack"]).failed(
        r#"
kit repack: FILE.blk or DIR is missing
usage: kit repack FILE.blk or DIR
`kit repack --help` says more
"#,
    );
}

#[test]
fn a_word_too_many() {
    kit(&["lint", "feed.txt", "data.json"]).failed(
        r#"
kit lint: `data.json` is a word too many
usage: kit lint FILE
`kit lint --help` says more
"#,
    );
}

#[test]
fn an_unknown_option() {
    kit(&["check", "--fule", "7", "feed.txt"]).failed(
        r#"
kit check: there is no option `--fule`: did you mean `--fuel`?
usage: kit check FILE [DATA.json] [--fuel N] [--output N] [--scratch N]
`kit check --help` says more
"#,
    );
    kit(&["lint", "feed.txt", "--fuel", "7"]).failed(
        r#"
kit lint: there is no option `--fuel`
usage: kit lint FILE
`kit lint --help` says more
"#,
    );
}

#[test]
fn an_option_without_its_number() {
    kit(&["explain", "set", "--fuel"]).failed(
        r#"
kit explain: --fuel has nothing behind it
usage: kit explain DIR [--fuel N] [--output N] [--scratch N]
`kit explain --help` says more
"#,
    );
}

#[test]
fn an_option_with_another_number() {
    for wrong in ["-1", "4294967296", "many", "\u{1b}"] {
        let said = kit(&["check", "feed.txt", "--fuel", wrong]);
        let shown = wrong.replace('\u{1b}', "\\u{1b}");
        let first =
            format!("kit check: --fuel takes a number from 0 to 4294967295, not `{shown}`\n");
        assert!(said.err.starts_with(&first), "{}", said.err);
        assert_eq!(said.status, Some(2));
    }
    kit(&["render", "feed.txt", "--output", "1073741825"]).failed(
        r#"
kit render: --output takes a number from 0 to 1073741824, not `1073741825`
usage: kit render FILE [DATA.json] [--to OUT] [--fuel N] [--output N] [--scratch N]
`kit render --help` says more
"#,
    );
}

/// Behind `--` a word is an operand, whatever it looks like.
#[test]
fn operands_that_look_like_options() {
    kit(&["check", "--", "--help"]).failed("kit: --help: there is no such file\n");
}

#[test]
fn a_file_name_that_is_no_text() {
    let name = OsStr::from_bytes(b"fe\xFFed.txt");
    let words = [OsStr::new("check"), name];
    desk()
        .kit(&words)
        .failed("kit: fe\u{FFFD}ed.txt: there is no such file\n");
    let desk = desk();
    std::fs::write(desk.path("").join(name), changed("", "")).expect("written");
    desk.kit(&words)
        .done("fe�ed.txt: accepted, and gives a text of 16 bytes in 12 steps\n");
    let words = [OsStr::new("assemble"), name, name];
    desk.kit(&words)
        .failed("kit: fe\u{FFFD}ed.txt: this is a file, and a folder is expected\n");
}

#[test]
fn a_file_name_with_control_characters() {
    kit(&["check", "\u{1b}[2J"]).failed(
        r#"
kit: \u{1b}[2J: there is no such file
"#,
    );
    let desk = desk_with("").with("a\nb.txt", "class");
    desk.kit(&["check", "a\nb.txt"]).refused(
        r#"
a\nb.txt:1:6: the class's name is expected here, not the end of the description
    class
         ^
"#,
    );
}

#[test]
fn the_version() {
    for word in ["--version", "-V"] {
        kit(&[word]).done(concat!("kit ", env!("CARGO_PKG_VERSION"), "\n"));
    }
}

#[test]
fn the_page_of_the_kit() {
    for word in ["--help", "-h", "help"] {
        kit(&[word]).done(PAGE);
    }
}

const PAGE: &str = r#"
kit: the page machine's kit for designers

  kit new DIR                       make a folder with a small feed to start from
  kit check FILE [DATA.json]        say what is wrong with a description, and where
  kit render FILE [DATA.json]       print the text of a description and its data
  kit size FILE [DATA.json]         say how full each stream is, and how many more items fit
  kit lint FILE                     say what is allowed, but most likely not meant
  kit value FILE DATA.json OUT.blk  make a value stream from JSON
  kit assemble FILE DIR             make the streams of a description, and their map
  kit explain DIR                   check and evaluate the streams in a folder, and explain what is refused
  kit dump FILE.blk                 print a stream record by record
  kit repack FILE.blk or DIR        give streams with checks of the old kind those of now

`kit COMMAND --help` says more of a command, `kit --version` which kit this is.
Exit status: 0 done; 1 refused; 2 bad use, or a file that can't be read or written.
"#;

const COMMANDS: [&str; 10] = [
    "new", "check", "render", "size", "lint", "value", "assemble", "explain", "dump", "repack",
];

/// Each command has its page, whatever else is given.
#[test]
fn the_pages_of_the_commands() {
    for name in COMMANDS {
        let page = kit(&[name, "--help"]);
        assert_eq!((page.status, page.err.as_str()), (Some(0), ""));
        assert!(
            page.out.starts_with(&format!("kit {name} ")),
            "{}",
            page.out
        );
        assert!(page.out.ends_with("\nExit status: 0 done; 1 refused; 2 bad use, or a file that can't be read or written.\n"));
        assert!(
            page.out.lines().all(|line| line.len() <= 120),
            "{}",
            page.out
        );
        kit(&[name, "x", "-h", "y", "z"]).done(&page.out);
        kit(&["help", name]).done(&page.out);
        assert!(PAGE.contains(&format!("\n  kit {name} ")));
    }
}

#[test]
fn the_page_of_a_command_that_evaluates() {
    kit(&["check", "--help"]).done(
        r#"
kit check FILE [DATA.json] [--fuel N] [--output N] [--scratch N]
say what is wrong with a description, and where

Reads the description in FILE, assembles it and asks the proved library. Mistakes of the
description itself are shown together; what the library refuses is shown at its line, with the
rule that failed. With DATA.json, or if the description has a value, it is evaluated, too.

  --fuel N      the most nodes visited (1000000)
  --output N    the bytes of the output (65536)
  --scratch N   the 16-bit numbers of the scratch (4800)

Exit status: 0 done; 1 refused; 2 bad use, or a file that can't be read or written.
"#,
    );
}

#[test]
fn the_page_of_a_command_without_options() {
    kit(&["value", "--help"]).done(
        r#"
kit value FILE DATA.json OUT.blk
make a value stream from JSON

Makes the value stream of the data in DATA.json, by the type that the description in FILE
declares: an object for a record, by the names of its fields, an object with one key for a
variant, by the name of its case, an array for a list, a string for a text, true or false for yes
or no. All mistakes are shown at once, each with its path in the data, as episodes[3].title.

Exit status: 0 done; 1 refused; 2 bad use, or a file that can't be read or written.
"#,
    );
}

/// Mostly a variable of a shell that isn't set: a folder named so would be the one where the kit runs.
#[test]
fn an_empty_word() {
    desk().kit(&["assemble", "feed.txt", ""]).failed(
        "
kit assemble: DIR is an empty word
usage: kit assemble FILE DIR
`kit assemble --help` says more
",
    );
}

#[test]
fn an_option_with_its_number_behind_a_sign() {
    desk().kit(&["explain", "set", "--fuel=x"]).failed(
        "
kit explain: --fuel takes a number from 0 to 4294967295, not `x`
usage: kit explain DIR [--fuel N] [--output N] [--scratch N]
`kit explain --help` says more
",
    );
}
