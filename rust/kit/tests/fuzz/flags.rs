//! The words behind the test's name.

/// What is asked for.
#[derive(Debug)]
pub struct Flags {
    pub seed: u64,
    pub cases: u64,
    /// One case alone.
    pub case: Option<u64>,
    /// Whether only the test's name is asked for.
    pub list: bool,
    /// Whether the words ask for other tests.
    pub others: bool,
}

/// How many cases the tests run, and from which seed.
pub const CASES: u64 = 4000;
const SEED: u64 = 1;

/// The name under which the words of `cargo test` ask for it.
const NAME: &str = "fuzz";

/// Words of the usual test program that have another word behind them.
const PAIRS: [&str; 6] = [
    "--format",
    "--logfile",
    "--test-threads",
    "--color",
    "-Z",
    "--shuffle-seed",
];

impl Flags {
    /// Reads the words. Those of the usual test program do what they do there, or nothing.
    ///
    /// # Errors
    /// A flag of its own has no number.
    pub fn read(words: impl Iterator<Item = String>) -> Result<Self, String> {
        let mut flags = Self {
            seed: SEED,
            cases: CASES,
            case: None,
            list: false,
            others: false,
        };
        let (mut filters, mut exact) = (Vec::new(), false);
        let mut words = words.peekable();
        while let Some(word) = words.next() {
            match word.as_str() {
                "--seed" => flags.seed = number(&word, words.next())?,
                "--cases" => flags.cases = number(&word, words.next())?,
                "--case" => flags.case = Some(number(&word, words.next())?),
                "--list" => flags.list = true,
                "--exact" => exact = true,
                // No test of this program is left out otherwise, or is a benchmark.
                "--ignored" | "--bench" => flags.others = true,
                "--skip" => flags.others |= words.next().is_some_and(|it| NAME.contains(&it)),
                pair if PAIRS.contains(&pair) => drop(words.next()),
                other if other.starts_with('-') => {}
                _ => filters.push(word),
            }
        }
        let asks = |it: &String| {
            if exact {
                it == NAME
            } else {
                NAME.contains(it.as_str())
            }
        };
        flags.others |= !filters.is_empty() && !filters.iter().any(asks);
        Ok(flags)
    }
}

fn number(flag: &str, word: Option<String>) -> Result<u64, String> {
    let parsed = word.and_then(|it| it.parse().ok());
    parsed.ok_or_else(|| format!("{flag} takes a number"))
}
