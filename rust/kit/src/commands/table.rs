//! The table of the commands, and their pages.

use super::words::{bad_use, Words};
use super::{assemble, check, dump, explain, lint, new, render, repack, size, value};
use super::{Done, Step, VERSION};
use crate::language::rows::meant;
use crate::words::named;
use std::ffi::{OsStr, OsString};

/// A command.
pub struct Command {
    /// Its name.
    pub name: &'static str,
    /// Its operands, those that may be left out in brackets.
    pub operands: &'static [&'static str],
    /// Its options.
    pub options: &'static [Flag],
    /// What it does, in a line.
    pub summary: &'static str,
    /// What more there is to know.
    pub page: &'static str,
    run: fn(&Words) -> Step<Done>,
}

/// An option of a command.
pub struct Flag {
    /// Its name.
    pub name: &'static str,
    /// What stands behind it.
    pub value: &'static str,
    /// What it says.
    pub says: &'static str,
}

/// What an evaluation is lent, behind the file that its text is written to.
const TO_AND_LENT: &[Flag] = &[
    Flag {
        name: "--to",
        value: "OUT",
        says: "the file that the text is written to, if there is one",
    },
    Flag {
        name: "--fuel",
        value: "N",
        says: "the most nodes visited (1000000)",
    },
    Flag {
        name: "--output",
        value: "N",
        says: "the bytes of the output (65536)",
    },
    Flag {
        name: "--scratch",
        value: "N",
        says: "the 16-bit numbers of the scratch (4800)",
    },
];

/// What an evaluation is lent.
const LENT: &[Flag] = TO_AND_LENT.split_at(1).1;

/// All commands, in the order in which a designer meets them.
pub const COMMANDS: [Command; 10] = [
    Command {
        name: "new",
        operands: &["DIR"],
        options: &[],
        summary: "make a folder with a small feed to start from",
        page: "\
Makes DIR with feed.txt, the description of a small RSS feed, and data.json, its data.
docs/TUTORIAL.md goes on from there. A folder that has one of these files stays as it is.
",
        run: new::run,
    },
    Command {
        name: "check",
        operands: &["FILE", "[DATA.json]"],
        options: LENT,
        summary: "say what is wrong with a description, and where",
        page: "\
Reads the description in FILE, assembles it and asks the proved library. Mistakes of the
description itself are shown together; what the library refuses is shown at its line, with the
rule that failed. With DATA.json, or if the description has a value, it is evaluated, too.
",
        run: check::run,
    },
    Command {
        name: "render",
        operands: &["FILE", "[DATA.json]"],
        options: TO_AND_LENT,
        summary: "print the text of a description and its data",
        page: "\
Prints the text that the description in FILE gives for the data in DATA.json or, without
DATA.json, for the value that the description has. What is refused is shown as by kit check.
With --to the text is written to a file, whole or not at all: `> FILE` empties it first.
",
        run: render::run,
    },
    Command {
        name: "size",
        operands: &["FILE", "[DATA.json]"],
        options: LENT,
        summary: "say how full each stream is, and how many more items fit",
        page: "\
A stream holds 8,064 records in 128 blocks. Says how many the grammar, the templates and the
value take, and the steps and bytes of the text. For each list of the data that stands in no
other it says how many items more would fit, if they are like those that it has, and what is
full then: the value stream, the output or the fuel.
",
        run: size::run,
    },
    Command {
        name: "lint",
        operands: &["FILE"],
        options: &[],
        summary: "say what is allowed, but most likely not meant",
        page: "\
Warns of a plain class that admits & or < and stands between keywords of markup, of a class
that admits nothing, of productions, templates, classes and types that nothing uses, and of a
for whose body writes nothing. Exit status 1 if there is a warning.
",
        run: lint::run,
    },
    Command {
        name: "value",
        operands: &["FILE", "DATA.json", "OUT.blk"],
        options: &[],
        summary: "make a value stream from JSON",
        page: "\
Makes the value stream of the data in DATA.json, by the type that the description in FILE
declares: an object for a record, by the names of its fields, an object with one key for a
variant, by the name of its case, an array for a list, a string for a text, true or false for yes
or no. All mistakes are shown at once, each with its path in the data, as episodes[3].title.
",
        run: value::run,
    },
    Command {
        name: "assemble",
        operands: &["FILE", "DIR"],
        options: &[],
        summary: "make the streams of a description, and their map",
        page: "\
Makes grammar.blk and template.blk in DIR from the description in FILE (rust/kit/FORMAT.md),
value.blk if the description has a value, and map.json, which tells for each record the line
and column that it comes from, and its names. Files are written all or none.
",
        run: assemble::run,
    },
    Command {
        name: "explain",
        operands: &["DIR"],
        options: LENT,
        summary: "check and evaluate the streams in a folder, and explain what is refused",
        page: "\
Asks the proved library about grammar.blk, template.blk and value.blk in DIR, and shows what is
refused, where, and by which rule. Where map.json is there and fits the streams, lines and names
are those of the description; without it things are called by their numbers.
",
        run: explain::run,
    },
    Command {
        name: "dump",
        operands: &["FILE.blk"],
        options: &[],
        summary: "print a stream record by record",
        page: "\
Prints the records of a stream, damaged or not, and marks what is damaged or odd. With a map.json
beside it that fits the stream, names and places of the description stand with the numbers.
",
        run: dump::run,
    },
    Command {
        name: "repack",
        operands: &["FILE.blk or DIR"],
        options: &[],
        summary: "give streams with checks of the old kind those of now",
        page: "\
Packs a stream, or the three streams of a folder, anew in its place, if its checks are of the
kind from before request b. A stream that is damaged stays as it is, and so do those beside it.
",
        run: repack::run,
    },
];

const STATUS: &str = "\
Exit status: 0 done; 1 refused; 2 bad use, or a file that can't be read or written.
";

impl Command {
    /// How it is called.
    pub fn usage(&self) -> String {
        let flag = |flag: &Flag| format!(" [{} {}]", flag.name, flag.value);
        let options: String = self.options.iter().map(flag).collect();
        format!("kit {} {}{options}", self.name, self.operands.join(" "))
    }

    fn help(&self) -> String {
        let flag = |flag: &Flag| {
            let call = format!("{} {}", flag.name, flag.value);
            format!("  {call:<14}{}\n", flag.says)
        };
        let options: String = self.options.iter().map(flag).collect();
        let gap = if self.options.is_empty() { "" } else { "\n" };
        format!(
            "{}\n{}\n\n{}{gap}{options}\n{STATUS}",
            self.usage(),
            self.summary,
            self.page
        )
    }
}

/// The page of the kit itself.
fn help() -> String {
    let mut text = String::from("kit: the page machine's kit for designers\n\n");
    for command in &COMMANDS {
        let call = format!("kit {} {}", command.name, command.operands.join(" "));
        text.push_str(&format!("  {call:<32}  {}\n", command.summary));
    }
    text + "\n`kit COMMAND --help` says more of a command, `kit --version` which kit this is.\n"
        + STATUS
}

/// Runs the command that the words name.
pub(super) fn run(words: &[OsString]) -> Step<Done> {
    let Some((name, rest)) = words.split_first() else {
        return Err(unknown("a command is missing"));
    };
    match (name.to_str(), rest.first()) {
        (Some("help"), Some(of)) => return Ok(Done::fine(named_by(of)?.help())),
        (Some("help" | "--help" | "-h"), _) => return Ok(Done::fine(help())),
        (Some("--version" | "-V"), _) => return Ok(Done::fine(VERSION)),
        _ => {}
    }
    let command = named_by(name)?;
    let words = Words::read(command, rest)?;
    match words.help {
        true => Ok(Done::fine(command.help())),
        false => (command.run)(&words),
    }
}

/// The command with a name.
fn named_by(name: &OsStr) -> Step<&'static Command> {
    let name = name.to_string_lossy();
    let Some(command) = COMMANDS.iter().find(|command| command.name == name) else {
        let near = meant(&name, COMMANDS.iter().map(|command| command.name), 0);
        let message = format!("there is no command {}{near}", named(&name));
        return Err(unknown(&message));
    };
    Ok(command)
}

fn unknown(message: &str) -> Done {
    Done {
        err: format!("kit: {message}\n`kit --help` lists the commands\n"),
        status: 2,
        ..Done::default()
    }
}

/// The end of a command whose words don't fit together.
pub(super) fn misused(name: &str, message: &str) -> Done {
    match COMMANDS.iter().find(|command| command.name == name) {
        Some(command) => bad_use(command, message),
        None => unknown(message),
    }
}
