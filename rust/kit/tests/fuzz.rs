//! Descriptions, JSON, streams and words at random, through every command: none panics or runs for ever,
//! what is said and printed is bounded and can be seen, and what fails changes no file.
//!
//! `cargo test -p kit --test fuzz -- --cases 100000 --seed 7` runs more cases, and from another seed;
//! `-- --seed 7 --case 12` runs one case again, tells of its runs, and keeps its inputs.

#[path = "fuzz/mod.rs"]
mod parts;

use parts::case::Case;
use parts::flags::{Flags, CASES};
use parts::random::Random;
use parts::run::{Held, Runner, PANIC};
use parts::tally::Tally;
use parts::watchdog::Watchdog;
use std::env::set_current_dir;
use std::fs;
use std::panic::{catch_unwind, set_hook, AssertUnwindSafe};
use std::path::{Path, PathBuf};
use std::process::ExitCode;

/// Cases that fail are told up to so many.
const MOST_FAILURES: usize = 10;

fn main() -> ExitCode {
    let flags = match Flags::read(std::env::args().skip(1)) {
        Ok(flags) => flags,
        Err(why) => {
            eprintln!("fuzz: {why}");
            return ExitCode::from(2);
        }
    };
    if flags.list {
        println!("fuzz: test");
    }
    if flags.list || flags.others {
        return ExitCode::SUCCESS;
    }
    keep_panics();
    let folder = Path::new(env!("CARGO_TARGET_TMPDIR"));
    let work = folder.join(format!("fuzz-{}", std::process::id()));
    let failures = run(&flags, &work);
    let _ = set_current_dir(folder).and_then(|()| fs::remove_dir_all(&work));
    match failures {
        0 => ExitCode::SUCCESS,
        _ => ExitCode::FAILURE,
    }
}

/// Panics are told with their case, and so are kept and not printed.
fn keep_panics() {
    set_hook(Box::new(|panic| {
        if let Ok(mut kept) = PANIC.lock() {
            *kept = panic.to_string();
        }
    }));
}

/// Runs all cases, and gives how many failed.
fn run(flags: &Flags, work: &Path) -> usize {
    let watchdog = Watchdog::start(flags.seed);
    let mut tally = Tally::default();
    let cases = flags.case.map_or(0..flags.cases, |case| case..case + 1);
    let mut failures = 0;
    for case in cases.clone() {
        watchdog.begin(case);
        let folder = work.join(format!("seed-{}-case-{case}", flags.seed));
        let held = in_folder(flags, case, &folder, &mut tally);
        if held.is_err() || flags.case.is_some() {
            let kept = kept(&folder, flags.seed, case);
            println!("fuzz: the inputs are in {}", kept.display());
        }
        if let Err(why) = held {
            println!("fuzz: seed {}, case {case}: {why}", flags.seed);
            println!(
                "fuzz: run it again with --seed {} --case {case}\n",
                flags.seed
            );
            failures += 1;
        }
        if failures == MOST_FAILURES {
            break;
        }
        let _ = fs::remove_dir_all(&folder);
    }
    println!(
        "fuzz: seed {}, {}, {failures} failed",
        flags.seed,
        kit::words::counted(cases.count(), "case", "cases")
    );
    print!("{}", tally.shown());
    match tally
        .missing()
        .filter(|_| flags.case.is_none() && flags.cases >= CASES)
    {
        Some(missing) => {
            println!("fuzz: {missing}");
            failures + 1
        }
        None => failures,
    }
}

/// Runs a case in a folder of its own, which is the current one meanwhile.
fn in_folder(flags: &Flags, case: u64, folder: &Path, tally: &mut Tally) -> Held<()> {
    fs::create_dir_all(folder).expect("a folder for the case");
    set_current_dir(folder).expect("the folder of the case");
    let mut runner = Runner::new(tally, flags.case.is_some());
    let case = Case {
        random: Random::of_case(flags.seed, case),
        runner: &mut runner,
    };
    let held = catch_unwind(AssertUnwindSafe(|| case.run()));
    tally.end_case();
    held.unwrap_or_else(|_| {
        let said = PANIC.lock().map(|it| it.clone()).unwrap_or_default();
        Err(format!("the test itself panics: {said}"))
    })
}

/// Moves the folder of a case to where it stays.
fn kept(folder: &Path, seed: u64, case: u64) -> PathBuf {
    let name = format!("fuzz-kept-seed-{seed}-case-{case}");
    let kept = Path::new(env!("CARGO_TARGET_TMPDIR")).join(name);
    let _ = fs::remove_dir_all(&kept);
    match fs::rename(folder, &kept) {
        Ok(()) => kept,
        Err(_) => folder.to_path_buf(),
    }
}
