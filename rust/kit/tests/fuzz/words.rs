//! Random words for commands: options within bounds, and words that make no sense.

use super::random::Random;
use std::ffi::OsString;
use std::os::unix::ffi::OsStringExt;

/// Words as a command takes them.
pub fn words(row: &[&str]) -> Vec<OsString> {
    row.iter().map(OsString::from).collect()
}

/// Options for a command that evaluates, within what keeps time and room small.
pub fn options(random: &mut Random) -> Vec<OsString> {
    let mut found = Vec::new();
    let mut option = |name: &str, number: usize| {
        found.extend([OsString::from(name), OsString::from(number.to_string())]);
    };
    if random.one_in(4) {
        option("--fuel", random.mostly_small(1_000_000));
    }
    if random.one_in(4) {
        option("--output", random.mostly_small(200_000));
    }
    if random.one_in(12) {
        option(
            "--scratch",
            *random.pick(&[0, 1, 4799, 4800, 4801, 100_000]),
        );
    }
    found
}

/// Words of all kinds; files are those of the case's folder.
const WORDS: [&str; 45] = [
    "new",
    "check",
    "render",
    "size",
    "lint",
    "value",
    "assemble",
    "explain",
    "dump",
    "repack",
    "help",
    "chek",
    "--help",
    "-h",
    "--version",
    "-V",
    "--",
    "-",
    "--fuel",
    "--output",
    "--scratch",
    "--to",
    "--fule",
    "--fuel=1",
    "0",
    "1",
    "4800",
    "65536",
    "4294967295",
    "4294967296",
    "99999999999999999999",
    "-1",
    "+7",
    "1e3",
    "feed.txt",
    "data.json",
    "set",
    "set/grammar.blk",
    "set/map.json",
    "none.txt",
    "none/none",
    "",
    ".",
    "é\u{1B}[2J\n\u{202E}",
    "feed.txt/below",
];

/// Words that ask for much room are no use here.
const MOST_LENT: [&str; 3] = ["4294967295", "4294967296", "99999999999999999999"];

/// Random words, the first mostly a command's name.
pub fn any(random: &mut Random) -> Vec<OsString> {
    let mut found = Vec::new();
    if !random.one_in(8) {
        found.push(OsString::from(WORDS[random.below(10)]));
    }
    for _ in 0..random.mostly_small(6) {
        let word = match random.below(16) {
            0 => OsString::from_vec(vec![random.byte() | 1; random.below(5)]),
            1 => OsString::from(
                random
                    .pick(&["x", "é", "\u{1}", "\0"])
                    .repeat(random.mostly_small(200_000)),
            ),
            _ => OsString::from(*random.pick(&WORDS)),
        };
        let word = word.into_vec();
        // No word leads out of the case's folder, or to a name that the system takes for another file.
        let safe = !word.starts_with(b"/") && !word.windows(2).any(|it| it == b"..");
        let lends = found
            .last()
            .is_some_and(|it: &OsString| it == "--output" || it == "--scratch");
        let word = OsString::from_vec(if safe { word } else { b"safe".to_vec() });
        match lends && MOST_LENT.iter().any(|it| word == *it) {
            true => found.push(OsString::from("70000")),
            false => found.push(word),
        }
    }
    found
}
