//! A folder in which the steps of a page are done.

use super::shown::is_shown;
use super::{Command, Hunk, Step};
use std::fs;
use std::path::{Path, PathBuf};
use std::process;

/// What a command showed and its exit status.
#[derive(Debug)]
pub struct Said {
    pub text: String,
    pub status: Option<i32>,
}

/// Where a reader of the page is, and what was done last.
pub struct Folder {
    pub path: PathBuf,
    /// What was shown on the page of each command, and what the command showed.
    pub seen: Vec<(Vec<String>, String)>,
    status: Option<i32>,
    change: Option<(String, Vec<Hunk>)>,
}

impl Folder {
    /// An empty folder for a test.
    pub fn fresh(name: &str) -> Self {
        let path = Path::new(env!("CARGO_TARGET_TMPDIR")).join(name);
        let _ = fs::remove_dir_all(&path);
        fs::create_dir_all(&path).expect("a folder");
        Self {
            path,
            seen: Vec::new(),
            status: None,
            change: None,
        }
    }

    /// A file's text.
    pub fn read(&self, file: &str) -> String {
        let path = self.path.join(file);
        fs::read_to_string(&path).unwrap_or_else(|error| panic!("{}: {error}", path.display()))
    }

    /// Does the steps of a page in their order.
    ///
    /// # Errors
    /// The line of the first step that can't be done, or shows something else, and why.
    pub fn follow(&mut self, page: &str) -> Result<(), String> {
        for (line, step) in super::steps(page)? {
            self.step(&step)
                .map_err(|why| format!("line {line}: {why}"))?;
        }
        Ok(())
    }

    fn step(&mut self, step: &Step) -> Result<(), String> {
        match step {
            Step::Change { file, hunks } => {
                self.change = Some((file.clone(), hunks.clone()));
                hunks.iter().try_for_each(|it| self.hunk(file, it))
            }
            Step::Undo => {
                let (file, hunks) = self.change.take().ok_or("there is no change to undo")?;
                hunks.into_iter().try_for_each(|Hunk { old, new }| {
                    self.hunk(&file, &Hunk { old: new, new: old })
                })
            }
            Step::Has { file, lines } => self.place(file, lines).map(|_| ()),
            Step::Commands(commands) => commands.iter().try_for_each(|it| self.command(it)),
        }
    }

    /// Where a file has these lines, which must be once.
    fn place(&self, file: &str, lines: &str) -> Result<usize, String> {
        let text = format!("\n{}", self.read(file));
        let found: Vec<_> = text.match_indices(&format!("\n{lines}")).collect();
        match found[..] {
            [(at, _)] if !lines.is_empty() => Ok(at),
            _ => Err(format!("{file} has this {} times:\n{lines}", found.len())),
        }
    }

    fn hunk(&self, file: &str, hunk: &Hunk) -> Result<(), String> {
        let at = self.place(file, &hunk.old)?;
        let mut text = self.read(file);
        text.replace_range(at..at + hunk.old.len(), &hunk.new);
        fs::write(self.path.join(file), text).map_err(|error| error.to_string())
    }

    fn command(&mut self, command: &Command) -> Result<(), String> {
        let said = self.typed(&command.typed)?;
        let shown: Vec<&str> = command.shown.iter().map(String::as_str).collect();
        let lines: Vec<&str> = said.lines().collect();
        if !is_shown(&shown, &lines) {
            return Err(format!("`{}` shows this:\n{said}", command.typed));
        }
        self.seen.push((command.shown.clone(), said));
        Ok(())
    }

    /// What a line shows that is typed in the folder.
    fn typed(&mut self, line: &str) -> Result<String, String> {
        if line == "echo $?" {
            let status = self.status.ok_or("no status")?;
            return Ok(status.to_string());
        }
        if let Some(folder) = line.strip_prefix("cd ") {
            self.path.push(folder);
            return Ok(String::new());
        }
        if !line.starts_with("kit ") {
            return Err(format!("`{line}` is no command of the kit"));
        }
        let Said { text, status } = self.run(line);
        self.status = status;
        Ok(text)
    }

    /// Has a shell run a line, and both its outputs go to one place, as on a terminal.
    pub fn run(&self, line: &str) -> Said {
        let kit = Path::new(env!("CARGO_BIN_EXE_kit"));
        let others = std::env::var("PATH").unwrap_or_default();
        let folder = kit.parent().expect("the kit's folder").display();
        let output = process::Command::new("sh")
            .args(["-c", &format!("exec 2>&1\n{line}")])
            .env("PATH", format!("{folder}:{others}"))
            .current_dir(&self.path)
            .output()
            .expect("a shell");
        Said {
            text: String::from_utf8(output.stdout).expect("UTF-8"),
            status: output.status.code(),
        }
    }
}
