//! A net for runs that don't end: a thread that ends the process when one case takes very long.

use std::sync::atomic::{AtomicU64, Ordering};
use std::sync::Arc;
use std::thread;
use std::time::{Duration, Instant};

/// How long a case may take. Each takes some milliseconds; this judges no speed.
const LONGEST: Duration = Duration::from_secs(60);

/// The case at hand, and when it began.
pub struct Watchdog {
    began: Instant,
    case: Arc<AtomicU64>,
    since: Arc<AtomicU64>,
}

impl Watchdog {
    /// Starts the thread.
    pub fn start(seed: u64) -> Self {
        let watchdog = Self {
            began: Instant::now(),
            case: Arc::default(),
            since: Arc::default(),
        };
        let began = watchdog.began;
        let (case, since) = (Arc::clone(&watchdog.case), Arc::clone(&watchdog.since));
        thread::spawn(move || loop {
            thread::sleep(Duration::from_secs(1));
            let started = Duration::from_millis(since.load(Ordering::Relaxed));
            if began.elapsed().saturating_sub(started) > LONGEST {
                let case = case.load(Ordering::Relaxed);
                eprintln!("fuzz: seed {seed}, case {case} takes over {LONGEST:?}: an endless run?");
                eprintln!("fuzz: run it again with --seed {seed} --case {case}");
                std::process::exit(1);
            }
        });
        watchdog
    }

    /// A case begins.
    pub fn begin(&self, case: u64) {
        let now = u64::try_from(self.began.elapsed().as_millis()).unwrap_or(u64::MAX);
        self.since.store(now, Ordering::Relaxed);
        self.case.store(case, Ordering::Relaxed);
    }
}
