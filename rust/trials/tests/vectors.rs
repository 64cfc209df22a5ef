//! The shared vectors of the latest landed request that has any, when they are there
//! (`PAGE_MACHINE_VECTORS`, or `shared/vectors` beside the repository), held against both machines.
//! A later request may change the answers of an earlier folder. Each folder has three streams, what
//! the paper's program prints, and more calls; `vectors.txt` has checks, packing, unpacking and
//! unescaping.

use std::fs;
use std::path::{Path, PathBuf};

use build::fnv1a;
use trials::generate::Streams;
use trials::run::try_streams;
use trials::{Fields, Machine, Random, Reference, SECOND};

/// The folder of vectors: `base`, or the letter of the latest landed request that has any (e changes
/// no answer and has none).
const STAGE: &str = "g";

const MACHINES: [&dyn Machine; 2] = [&Reference, &SECOND];

#[test]
fn every_folder_is_answered_as_expected() {
    let Some(stage) = vectors() else { return };
    for machine in MACHINES {
        let (mut folders, mut calls) = (0, 0);
        for folder in folders_of(&stage) {
            let streams = streams(&folder);
            prints_what_is_expected(machine, &streams, &folder);
            calls += answers_calls(machine, &streams, &folder);
            folders += 1;
        }
        println!("{}: {folders} folders, {calls} calls", machine.name());
        assert!(calls > 0);
    }
}

#[test]
fn every_line_is_answered_as_expected() {
    let Some(stage) = vectors() else { return };
    let lines = fs::read_to_string(stage.join("vectors.txt")).expect("vectors.txt");
    for machine in MACHINES {
        let mut tried = 0;
        let mut unpacked = Vec::new();
        for line in lines.lines() {
            let (call, expected) = line.split_once(" -> ").expect("an arrow");
            let answered = answer_to(machine, call, &mut unpacked);
            assert_eq!(answered, expected.trim(), "{}: {call}", machine.name());
            tried += 1;
        }
        println!("{}: {tried} lines", machine.name());
        assert!(tried > 0);
    }
}

#[test]
fn both_machines_agree_on_every_folder() {
    let Some(stage) = vectors() else { return };
    for folder in folders_of(&stage) {
        let streams = streams(&folder);
        for seed in 0..10 {
            try_streams(&Reference, &SECOND, &mut Random::new(seed), &streams)
                .unwrap_or_else(|difference| panic!("{}: {difference}", folder.display()));
        }
    }
}

/// The folder of the stage, if it can be found; `PAGE_MACHINE_VECTORS` may also name it itself.
fn vectors() -> Option<PathBuf> {
    let rust = Path::new(env!("CARGO_MANIFEST_DIR")).join("..");
    let folders = match std::env::var_os("PAGE_MACHINE_VECTORS") {
        Some(folder) => vec![PathBuf::from(folder)],
        None => vec![
            rust.join("../../shared/vectors"),
            rust.join("../../../shared/vectors"),
        ],
    };
    let found = folders
        .iter()
        .flat_map(|folder| [folder.join(STAGE), folder.clone()])
        .find(|folder| folder.join("vectors.txt").is_file());
    if found.is_none() {
        println!("skipped: no vectors found; set PAGE_MACHINE_VECTORS to their folder");
    }
    found
}

/// The folders of sets, in order.
fn folders_of(stage: &Path) -> Vec<PathBuf> {
    let mut folders: Vec<PathBuf> = fs::read_dir(stage)
        .expect("a readable folder of vectors")
        .map(|entry| entry.expect("an entry").path())
        .filter(|path| path.is_dir())
        .collect();
    folders.sort();
    assert!(!folders.is_empty(), "no vectors in {}", stage.display());
    folders
}

/// The streams of a folder. A file that can't be opened counts as empty.
fn streams(folder: &Path) -> Streams {
    let stream = |name| fs::read(folder.join(name)).unwrap_or_default();
    Streams {
        grammar: stream("grammar.blk"),
        templates: stream("template.blk"),
        value: stream("value.blk"),
    }
}

/// What the paper's program does with a folder, against `expected.txt`.
fn prints_what_is_expected(machine: &dyn Machine, streams: &Streams, folder: &Path) {
    let (fields, text) = evaluated(machine, streams, 1_000_000, 65_536, 4_800);
    let mut printed = format!("{}\n", line_of(fields)).into_bytes();
    if fields[0] == 0 {
        printed.extend(text);
    }
    let expected = fs::read(folder.join("expected.txt")).expect("expected.txt");
    assert!(
        printed == expected,
        "{}, {}: printed\n{}\nexpected\n{}",
        folder.display(),
        machine.name(),
        String::from_utf8_lossy(&printed),
        String::from_utf8_lossy(&expected)
    );
}

/// Every call of `calls.txt`; answers how many there are.
fn answers_calls(machine: &dyn Machine, streams: &Streams, folder: &Path) -> usize {
    let calls = fs::read_to_string(folder.join("calls.txt")).expect("calls.txt");
    let mut tried = 0;
    for line in calls.lines().filter(|line| !line.starts_with('#')) {
        let (call, expected) = line.split_once(" -> ").expect("an arrow");
        let answered = match call {
            "check" => line_of(machine.check(&streams.grammar, &streams.templates)),
            _ => {
                let [fuel, out, scratch] =
                    ["fuel", "out", "scratch"].map(|name| number_in(call, name));
                let (fields, text) = evaluated(machine, streams, fuel as u32, out, scratch);
                format!("{}  bytes-fnv={:08x}", line_of(fields), fnv1a(&text))
            }
        };
        let (folder, name) = (folder.display(), machine.name());
        assert_eq!(answered, expected.trim(), "{folder}, {name}: {call}");
        tried += 1;
    }
    tried
}

/// The answer of an evaluate call and the bytes that it wrote.
fn evaluated(
    machine: &dyn Machine,
    streams: &Streams,
    fuel: u32,
    out: usize,
    scratch: usize,
) -> (Fields, Vec<u8>) {
    let before: Vec<u8> = (0..out).map(|i| (i * 31 + 7) as u8).collect();
    let mut after = before.clone();
    let mut numbers = vec![0x5A5A; scratch];
    let fields = machine.evaluate(streams.parts(), fuel, &mut after, &mut numbers);
    let written = fields[4] as usize;
    assert_eq!(after[written..], before[written..], "bytes past the text");
    let left = match fields[0] {
        1..=9 => 0x5A5A,
        _ => 0,
    };
    assert!(numbers.iter().all(|&number| number == left), "scratch");
    after.truncate(written);
    (fields, after)
}

/// What a line of vectors.txt expects behind its arrow. A single block is one of the stream that
/// the line before it unpacked.
fn answer_to(machine: &dyn Machine, call: &str, unpacked: &mut Vec<u8>) -> String {
    match call.split_once(' ').expect("a call and its arguments") {
        ("fnv1a", hex) => {
            let bytes = from_hex(hex);
            assert_eq!(fnv1a(&bytes), reference::fnv1a(&bytes));
            format!("{:08x}", fnv1a(&bytes))
        }
        ("pack", _) => {
            let payload = payload_of(number_in(call, "length"));
            let mut out = vec![0x5A; number_in(call, "out")];
            let fields = machine.pack(number_in(call, "kind") as u8, &payload, &mut out);
            with_bytes(fields, &out)
        }
        ("unpack", _) => {
            *unpacked = packed(machine, 2, number_in(call, "of-packed-kind-2-length"));
            let mut out = vec![0x5A; number_in(call, "out")];
            let fields = machine.unpack(number_in(call, "expected") as u8, unpacked, &mut out);
            with_bytes(fields, &out)
        }
        ("unescape", arguments) => {
            let (hex, _) = arguments.split_once(' ').expect("a text and a room");
            let mut out = vec![0x5A; number_in(call, "out")];
            let fields = machine.unescape(&from_hex(hex), &mut out);
            let plain = hex_of(written(fields, &out));
            format!("{} {plain}", line_of(fields))
        }
        ("block-payload", _) => {
            let payload = machine.block_payload(&unpacked[..512], build::CHECK_START);
            assert!(payload.is_empty() || *payload == unpacked[4..508]);
            format!("{} bytes", payload.len())
        }
        _ => panic!("an unknown call: {call}"),
    }
}

/// The five fields as the paper's program prints them.
fn line_of(fields: Fields) -> String {
    fields.map(|field| field.to_string()).join(" ")
}

fn with_bytes(fields: Fields, out: &[u8]) -> String {
    let hash = fnv1a(written(fields, out));
    format!("{}  bytes-fnv={hash:08x}", line_of(fields))
}

/// The bytes that a call wrote; those past them are as they were.
fn written(fields: Fields, out: &[u8]) -> &[u8] {
    let (written, rest) = out.split_at(fields[4] as usize);
    assert!(rest.iter().all(|&byte| byte == 0x5A), "bytes past those");
    written
}

/// The number behind `name=` in a call.
fn number_in(call: &str, name: &str) -> usize {
    let word = call
        .split_whitespace()
        .find_map(|word| word.strip_prefix(name)?.strip_prefix('='))
        .unwrap_or_else(|| panic!("no {name} in {call}"));
    word.parse().expect("a number")
}

fn packed(machine: &dyn Machine, kind: u8, length: usize) -> Vec<u8> {
    let mut stream = vec![0; 65_536];
    let fields = machine.pack(kind, &payload_of(length), &mut stream);
    stream.truncate(fields[4] as usize);
    stream
}

fn payload_of(length: usize) -> Vec<u8> {
    (0..length).map(|i| (7 * i + 3) as u8).collect()
}

fn from_hex(hex: &str) -> Vec<u8> {
    let digits = hex.trim_matches('-').as_bytes();
    let digit = |byte: u8| (byte as char).to_digit(16).expect("a hex digit") as u8;
    digits
        .chunks(2)
        .map(|pair| digit(pair[0]) * 16 + digit(pair[1]))
        .collect()
}

/// Bytes in hex, or a dash for none.
fn hex_of(bytes: &[u8]) -> String {
    match bytes {
        [] => "-".into(),
        _ => bytes.iter().map(|byte| format!("{byte:02x}")).collect(),
    }
}
