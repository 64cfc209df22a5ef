//! `trials [--seed N] [--cases N] [--case N] [--keep DIR]`: compares machines on generated cases.
//!
//! `--case` runs one case of the seed alone; `--keep` writes the streams of a case that differs into
//! a folder. Without the feature `proved` the reference is compared with itself, which still tries
//! the promises about every lent byte.

use std::path::{Path, PathBuf};
use std::process::ExitCode;
use std::time::{Instant, SystemTime, UNIX_EPOCH};

use trials::run::{run, Failure, Tally};
use trials::{Machine, Reference, SECOND};

struct Options {
    seed: u64,
    cases: u64,
    only: Option<u64>,
    keep: Option<PathBuf>,
}

const USAGE: &str = "usage: trials [--seed N] [--cases N] [--case N] [--keep DIR]";

fn main() -> ExitCode {
    let options = match options(std::env::args().skip(1)) {
        Ok(options) => options,
        Err(problem) => {
            eprintln!("{problem}\n{USAGE}");
            return ExitCode::from(2);
        }
    };
    println!("reference against {}", SECOND.name());
    println!("--seed {} --cases {}", options.seed, options.cases);
    let start = Instant::now();
    let outcome = match options.only {
        Some(case) => run(&Reference, &SECOND, options.seed, [case]),
        None => run(&Reference, &SECOND, options.seed, 0..options.cases),
    };
    println!("{:.1} s", start.elapsed().as_secs_f64());
    report(outcome, &options)
}

fn options(mut words: impl Iterator<Item = String>) -> Result<Options, String> {
    let clock = SystemTime::now().duration_since(UNIX_EPOCH);
    let mut options = Options {
        seed: clock.map_or(1, |time| time.as_nanos() as u64 % 1_000_000_000),
        cases: 20_000,
        only: None,
        keep: None,
    };
    while let Some(word) = words.next() {
        let argument = words.next().ok_or(format!("{word} needs an argument"))?;
        let number = || {
            let number = argument.parse::<u64>();
            number.map_err(|_| format!("{word} needs a number"))
        };
        match word.as_str() {
            "--seed" => options.seed = number()?,
            "--cases" => options.cases = number()?,
            "--case" => options.only = Some(number()?),
            "--keep" => options.keep = Some(argument.into()),
            _ => return Err(format!("{word} isn't known")),
        }
    }
    Ok(options)
}

fn report(outcome: Result<Tally, Failure>, options: &Options) -> ExitCode {
    match outcome {
        Ok(tally) => {
            println!("{tally}");
            let absent = tally.absent();
            if options.only.is_none() && !absent.is_empty() {
                println!("numbers that no call answered: {absent:?}");
                return ExitCode::FAILURE;
            }
            println!("no difference");
            ExitCode::SUCCESS
        }
        Err(failure) => {
            println!("{failure}");
            if let Some(folder) = &options.keep {
                match keep(&failure, folder) {
                    Ok(()) => println!("its streams are in {}", folder.display()),
                    Err(error) => println!("its streams can't be kept: {error}"),
                }
            }
            ExitCode::FAILURE
        }
    }
}

/// Writes the streams of a failure as the paper's program reads them.
fn keep(failure: &Failure, folder: &Path) -> std::io::Result<()> {
    std::fs::create_dir_all(folder)?;
    let names = ["grammar.blk", "template.blk", "value.blk"];
    for (name, stream) in names.iter().zip(failure.streams.parts()) {
        std::fs::write(folder.join(name), stream)?;
    }
    Ok(())
}
