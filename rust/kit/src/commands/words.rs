//! The words behind a command: its operands and options.

use super::table::Command;
use super::{Done, Step};
use crate::language::rows::meant;
use crate::reasons::explain::Lent;
use crate::words::named;
use std::ffi::{OsStr, OsString};
use std::path::{Path, PathBuf};

/// The most that `--output` and `--scratch` may ask for.
const MOST_LENT: usize = 1 << 30;

/// What a command is given.
#[derive(Debug)]
pub struct Words {
    operands: Vec<PathBuf>,
    /// What evaluate is lent.
    pub lent: Lent,
    /// The file that the text is written to.
    pub to: Option<PathBuf>,
    /// Whether the command's page is asked for.
    pub help: bool,
}

impl Words {
    /// Reads the words behind a command's name.
    ///
    /// # Errors
    /// Bad use, with what is wrong.
    pub fn read(command: &Command, words: &[OsString]) -> Step<Self> {
        let mut found = Self {
            operands: Vec::new(),
            lent: Lent::default(),
            to: None,
            help: false,
        };
        let mut words = words.iter();
        let mut only_operands = false;
        while let Some(word) = words.next() {
            match word.to_str() {
                Some("--") if !only_operands => only_operands = true,
                Some("-h") if !only_operands => found.help = true,
                Some(option) if option.starts_with("--") && !only_operands => {
                    match option.split_once('=') {
                        Some((option, word)) => {
                            let word = OsString::from(word);
                            found.option(command, option, &mut std::iter::once(&word))?;
                        }
                        None => found.option(command, option, &mut words)?,
                    }
                }
                _ => found.operands.push(PathBuf::from(word)),
            }
        }
        match found.help {
            true => Ok(found),
            false => found.counted(command),
        }
    }

    /// An operand that must be there.
    pub fn operand(&self, number: usize) -> &Path {
        self.operands.get(number).map_or(Path::new(""), |it| it)
    }

    /// An operand that may be left out.
    pub fn optional(&self, number: usize) -> Option<&Path> {
        self.operands.get(number).map(PathBuf::as_path)
    }

    /// There are as many operands as the command takes.
    fn counted(self, command: &Command) -> Step<Self> {
        let operands = command.operands;
        let empty = |operand: &PathBuf| operand.as_os_str().is_empty();
        if let Some(empty) = self.operands.iter().position(empty) {
            let which = operands.get(empty).unwrap_or(&"a word");
            return Err(bad_use(command, &format!("{which} is an empty word")));
        }
        if let Some(surplus) = self.operands.get(operands.len()) {
            let word = named(&surplus.to_string_lossy());
            return Err(bad_use(command, &format!("{word} is a word too many")));
        }
        let missing = operands.get(self.operands.len());
        match missing.filter(|operand| !operand.starts_with('[')) {
            Some(missing) => Err(bad_use(command, &format!("{missing} is missing"))),
            None => Ok(self),
        }
    }

    fn option<'w>(
        &mut self,
        command: &Command,
        option: &str,
        words: &mut impl Iterator<Item = &'w OsString>,
    ) -> Step<()> {
        if option == "--help" {
            self.help = true;
            return Ok(());
        }
        let flags = command.options.iter().map(|flag| flag.name);
        if !flags.clone().any(|flag| flag == option) {
            let near = meant(option, flags, 0);
            let message = format!("there is no option {}{near}", named(option));
            return Err(bad_use(command, &message));
        }
        let Some(word) = words.next() else {
            let message = format!("{option} has nothing behind it");
            return Err(bad_use(command, &message));
        };
        let number = |most| number(command, option, word, most);
        match option {
            "--to" => self.to = Some(PathBuf::from(word)),
            "--fuel" => self.lent.fuel = number(u64::from(u32::MAX))? as u32,
            "--output" => self.lent.output = number(MOST_LENT as u64)? as usize,
            _ => self.lent.scratch = number(MOST_LENT as u64)? as usize,
        }
        Ok(())
    }
}

/// The number behind an option.
fn number(command: &Command, option: &str, word: &OsStr, most: u64) -> Step<u64> {
    let parsed = word.to_str().and_then(|digits| digits.parse().ok());
    parsed.filter(|&count| count <= most).ok_or_else(|| {
        let word = named(&word.to_string_lossy());
        let message = format!("{option} takes a number from 0 to {most}, not {word}");
        bad_use(command, &message)
    })
}

/// The end of a command that is used wrongly.
pub fn bad_use(command: &Command, message: &str) -> Done {
    let name = command.name;
    Done {
        err: format!(
            "kit {name}: {message}\nusage: {}\n`kit {name} --help` says more\n",
            command.usage()
        ),
        status: 2,
        ..Done::default()
    }
}
