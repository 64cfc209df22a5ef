//! Reads the tutorial's page: its changes of files, what it says that a file has, and its commands.
//!
//! What stands in a fenced part is told by the line above it, and a part that is none of these is a
//! mistake of the page: so nothing on it goes untried.

pub mod folder;
pub mod shown;

/// One thing that a reader of the page does or sees.
#[derive(Debug)]
pub enum Step {
    /// Hunks of lines that are changed in a file.
    Change { file: String, hunks: Vec<Hunk> },
    /// The last change is undone.
    Undo,
    /// Lines that a file has.
    Has { file: String, lines: String },
    /// Commands, and what a terminal shows of them.
    Commands(Vec<Command>),
}

/// Lines of a file, whole ones, before a change and after it.
#[derive(Clone, Debug, Default)]
pub struct Hunk {
    pub old: String,
    pub new: String,
}

/// A line that is typed, and the lines that follow on the terminal.
#[derive(Debug)]
pub struct Command {
    pub typed: String,
    pub shown: Vec<String>,
}

/// The words that undo the last change.
const UNDO: &str = " Undo the change.";

/// The steps of a page, each with the line that it stands on.
pub fn steps(page: &str) -> Result<Vec<(usize, Step)>, String> {
    let (mut steps, mut said) = (Vec::new(), "");
    let mut lines = page.lines().zip(1..);
    while let Some((line, number)) = lines.next() {
        if line.ends_with(UNDO) {
            steps.push((number, Step::Undo));
        }
        let Some(form) = line.strip_prefix("```") else {
            said = if line.is_empty() { said } else { line };
            continue;
        };
        let fenced = lines.by_ref().map(|(line, _)| line);
        let block: Vec<&str> = fenced.take_while(|line| *line != "```").collect();
        let step = step(form, said, &block).ok_or(format!("line {number}: what is this part?"))?;
        steps.push((number, step));
        said = "";
    }
    Ok(steps)
}

/// What a fenced part means below a line.
fn step(form: &str, said: &str, block: &[&str]) -> Option<Step> {
    match form {
        "diff" => Some(Step::Change {
            file: named(said, "In `", "`:")?,
            hunks: block.split(|line| *line == "..").map(hunk).collect(),
        }),
        "" if block.first()?.starts_with("$ ") => Some(Step::Commands(commands(block))),
        "" => Some(Step::Has {
            file: named(said, "The file `", "` has")?,
            lines: lines(block.iter().copied()),
        }),
        _ => None,
    }
}

/// The name at the end of a line, between these words.
fn named(said: &str, before: &str, after: &str) -> Option<String> {
    let (_, name) = said.strip_suffix(after)?.rsplit_once(before)?;
    Some(name.to_string())
}

fn hunk(block: &[&str]) -> Hunk {
    let without = |sign: char| {
        let kept = block.iter().filter(move |line| !line.starts_with(sign));
        lines(kept.map(|line| line.get(1..).unwrap_or("")))
    };
    Hunk {
        old: without('+'),
        new: without('-'),
    }
}

fn lines<'a>(lines: impl Iterator<Item = &'a str>) -> String {
    lines.map(|line| format!("{line}\n")).collect()
}

fn commands(block: &[&str]) -> Vec<Command> {
    let mut commands: Vec<Command> = Vec::new();
    for line in block {
        match (line.strip_prefix("$ "), commands.last_mut()) {
            (None, Some(command)) => command.shown.push((*line).to_string()),
            (typed, _) => commands.push(Command {
                typed: typed.unwrap_or(line).to_string(),
                shown: Vec::new(),
            }),
        }
    }
    commands
}
