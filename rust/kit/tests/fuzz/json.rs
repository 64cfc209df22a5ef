//! Random JSON that is of no type, and what JSON is changed with.

use super::mutate::mutated;
use super::random::Random;

/// What is put into JSON.
pub const TOKENS: &[&str] = &[
    "{",
    "}",
    "[",
    "]",
    ",",
    ":",
    "\"",
    "\"\"",
    "null",
    "true",
    "false",
    "True",
    "yes",
    "NaN",
    "Infinity",
    "-",
    "-0",
    "0",
    "01",
    "1.",
    ".5",
    "1e",
    "1e400",
    "-1.5E+3",
    "1",
    "123456789012345678901234567890",
    "\"\\u0000\"",
    "\"\\uD800\"",
    "\"\\uD83C\\uDF05\"",
    "\"\\uDF05\"",
    "\"\\x\"",
    "\"\\",
    "'a'",
    "// c\n",
    "/* c */",
    "# c\n",
    "\u{FEFF}",
    "\0",
    "\"title\"",
    "\"title\":",
    "\"episodes\":",
    "\"medium\":",
    "{\"audio\":",
    "\"video\":",
    "\"map\": 1",
    "\"map\": 2",
    "\"checks\"",
    "\"records\"",
    "{}",
    "[]",
    "[[]]",
    "{\"\": {}}",
    "\"line\": 0",
    "\"line\": 18446744073709551615",
    "\"column\": 1e3",
    "\"path\"",
    "\"\\u001b[2J\"",
    "\n",
    "\r",
    "\u{2028}",
];

/// JSON as a text, changed at random.
pub fn changed(random: &mut Random, json: &[u8]) -> Vec<u8> {
    mutated(random, json, TOKENS)
}

/// JSON of some form, right or not.
pub fn any(random: &mut Random) -> Vec<u8> {
    let times = random.mostly_small(4000);
    let token = *random.pick(TOKENS);
    match random.below(9) {
        0 => "[".repeat(times).into_bytes(),
        1 => ("[".repeat(times) + token + &"]".repeat(times)).into_bytes(),
        2 => ("{\"a\":".repeat(times) + token + &"}".repeat(times)).into_bytes(),
        3 => (0..times)
            .flat_map(|_| random.pick(TOKENS).bytes())
            .collect(),
        4 => format!("[{}{token}]", format!("{token},").repeat(times)).into_bytes(),
        5 => {
            let members = (0..times).map(|it| format!("\"key {it}\": {token}"));
            format!("{{{}}}", members.collect::<Vec<String>>().join(",\n")).into_bytes()
        }
        6 => format!("\"{}\"", token.repeat(times)).into_bytes(),
        7 => {
            let item = *random.pick(&["{},", "[],", "\"\",", "{\"a\":1},", "true,"]);
            format!("[{}{{}}]", item.repeat(random.mostly_small(100_000))).into_bytes()
        }
        _ => (0..times).map(|_| random.byte()).collect(),
    }
}
