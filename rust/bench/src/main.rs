//! `bench [--rounds N] [--against OLD.so [--new NEW.so]]`: ratios of times as Markdown tables. No
//! time is asserted.
//!
//! With the feature `proved` the proved library is measured against the reference. With `--against`
//! it is measured against another build of it, a shared object with the same exports, which an
//! archive becomes by `cc -shared -o OLD.so -Wl,--whole-archive libfeed.a`. With `--new` the new build
//! is loaded as well: where code lies in memory counts for some percent, and two builds that are
//! loaded alike lie alike. A copy of the old one as the new one says how much a ratio is worth. Each
//! build packs the streams that it is measured on: builds from before and after request b write other
//! checks, and refuse each other's. Sets of a layout that the old build refuses and calls that it doesn't
//! have are left out.

#[allow(unsafe_code)]
mod loaded;
mod measure;
mod podcast;
mod sets;

use std::hint::black_box;
use std::path::Path;

use build::{fnv1a, payload, BLOCK, PAYLOAD, VALUE};
use loaded::Loaded;
use measure::{measure, Times};
use sets::{escaped_texts, Family, FAMILIES};
use trials::generate::Streams;
use trials::{Fields, Machine, Reference};

/// The calls that are measured.
trait Calls {
    fn name(&self) -> String;
    fn check(&self, grammar: &[u8], templates: &[u8]) -> Fields;
    fn evaluate(
        &self,
        streams: [&[u8]; 3],
        fuel: u32,
        out: &mut [u8],
        scratch: &mut [u16],
    ) -> Fields;
    fn pack(&self, kind: u8, payload: &[u8], out: &mut [u8]) -> Fields;
    fn unpack(&self, kind: u8, stream: &[u8], out: &mut [u8]) -> Fields;
    /// None if the build has no such call.
    fn unescape(&self, text: &[u8], out: &mut [u8]) -> Option<Fields>;
}

impl<M: Machine> Calls for M {
    fn name(&self) -> String {
        Machine::name(self)
    }

    fn check(&self, grammar: &[u8], templates: &[u8]) -> Fields {
        Machine::check(self, grammar, templates)
    }

    fn evaluate(
        &self,
        streams: [&[u8]; 3],
        fuel: u32,
        out: &mut [u8],
        scratch: &mut [u16],
    ) -> Fields {
        Machine::evaluate(self, streams, fuel, out, scratch)
    }

    fn pack(&self, kind: u8, payload: &[u8], out: &mut [u8]) -> Fields {
        Machine::pack(self, kind, payload, out)
    }

    fn unpack(&self, kind: u8, stream: &[u8], out: &mut [u8]) -> Fields {
        Machine::unpack(self, kind, stream, out)
    }

    fn unescape(&self, text: &[u8], out: &mut [u8]) -> Option<Fields> {
        Some(Machine::unescape(self, text, out))
    }
}

fn main() -> Result<(), String> {
    let rounds = option("--rounds").and_then(|word| word.parse().ok());
    let rounds = rounds.filter(|&rounds| rounds > 0).unwrap_or(41);
    let [old, new] = [loaded("--against")?, loaded("--new")?];
    println!("Medians of {rounds} rounds, everything measured in turns within one run.");
    println!("In brackets: the quartiles.\n");
    match old {
        Some(old) => against_table(new.as_ref(), &old, rounds),
        None => {
            speed_table(rounds);
            packing_table(rounds);
            unescape_table(rounds);
            growth_table(rounds);
        }
    }
    noise_line(rounds);
    Ok(())
}

/// The word behind an option.
fn option(name: &str) -> Option<String> {
    std::env::args().skip_while(|word| word != name).nth(1)
}

/// The build that an option names.
fn loaded(name: &str) -> Result<Option<Loaded>, String> {
    let build = option(name).map(|file| Loaded::open(Path::new(&file)));
    build.transpose()
}

#[cfg(feature = "proved")]
fn machines() -> Vec<Box<dyn Calls>> {
    vec![Box::new(Reference), Box::new(trials::proved::Proved)]
}

#[cfg(not(feature = "proved"))]
fn machines() -> Vec<Box<dyn Calls>> {
    vec![Box::new(Reference)]
}

/// A thing to be measured.
type Thing<'a> = Box<dyn FnMut() + 'a>;

/// One evaluate call with all the room that it needs.
fn evaluation<'a>(machine: &'a dyn Calls, streams: &'a Streams) -> Thing<'a> {
    let mut out = vec![0; 1 << 20];
    let mut scratch = vec![0; 4_800];
    Box::new(move || {
        black_box(machine.evaluate(black_box(streams.parts()), u32::MAX, &mut out, &mut scratch));
    })
}

fn checking<'a>(machine: &'a dyn Calls, streams: &'a Streams) -> Thing<'a> {
    Box::new(move || {
        let [grammar, templates, _] = black_box(streams.parts());
        black_box(machine.check(grammar, templates));
    })
}

/// The pass that no evaluate call can do without: FNV-1a over the same bytes.
fn hashing<'a>(parts: impl IntoIterator<Item = &'a [u8]>) -> Thing<'a> {
    let parts: Vec<&[u8]> = parts.into_iter().collect();
    Box::new(move || {
        for stream in black_box(&parts) {
            black_box(fnv1a(stream));
        }
    })
}

/// The longest payload that can be packed: 128 blocks of it.
fn longest_payload() -> Vec<u8> {
    (0..128 * PAYLOAD)
        .map(|at| (at * 7 + at / 251) as u8)
        .collect()
}

fn packing<'a>(machine: &'a dyn Calls, payload: &'a [u8]) -> Thing<'a> {
    let mut out = vec![0; 65_536];
    Box::new(move || {
        black_box(machine.pack(VALUE, black_box(payload), &mut out));
    })
}

fn unpacking<'a>(machine: &'a dyn Calls, stream: &'a [u8]) -> Thing<'a> {
    let mut out = vec![0; 65_536];
    Box::new(move || {
        black_box(machine.unpack(VALUE, black_box(stream), &mut out));
    })
}

fn unescaping<'a>(machine: &'a dyn Calls, text: &'a [u8]) -> Thing<'a> {
    let mut out = vec![0; text.len()];
    Box::new(move || {
        black_box(machine.unescape(black_box(text), &mut out));
    })
}

/// A payload as a stream that the machine itself has packed, and takes.
fn packed_by(machine: &dyn Calls, kind: u8, payload: &[u8]) -> Vec<u8> {
    let mut out = vec![0; payload.len().div_ceil(PAYLOAD) * BLOCK];
    let mut back = vec![0; out.len()];
    assert_eq!(machine.pack(kind, payload, &mut out)[0], 0);
    let [number, .., bytes] = machine.unpack(kind, &out, &mut back);
    let same = back[..bytes as usize].starts_with(payload);
    assert!(number == 0 && same, "{}: unpacking", machine.name());
    out
}

/// The streams of a set as the machine itself packs them.
fn set_packed_by(machine: &dyn Calls, streams: &Streams) -> Streams {
    let mut packed = streams.clone();
    for (index, stream) in streams.parts().into_iter().enumerate() {
        *packed.part_mut(index) = packed_by(machine, index as u8 + 1, &payload(stream));
    }
    packed
}

/// What a machine answers and writes on a set, which must finish.
fn finished(machine: &dyn Calls, family: &Family, streams: &Streams) -> (Fields, Vec<u8>) {
    let mut out = vec![0; 1 << 20];
    let fields = machine.evaluate(streams.parts(), u32::MAX, &mut out, &mut [0; 4_800]);
    assert_eq!(fields[0], 0, "{} must finish", family.name);
    (fields, out)
}

fn input(streams: &Streams) -> usize {
    streams.parts().iter().map(|stream| stream.len()).sum()
}

fn with_quartiles([low, middle, high]: [f64; 3]) -> String {
    format!("{middle:.2} ({low:.2} to {high:.2})")
}

/// A row of a Markdown table.
fn row(cells: &[String]) {
    println!("| {} |", cells.join(" | "));
}

fn header(cells: &[String]) {
    row(cells);
    println!("|{}", "---|".repeat(cells.len()));
}

fn speed_table(rounds: usize) {
    let machines = machines();
    let mut cells = vec![
        "set".to_string(),
        "bytes in".into(),
        "bytes out".into(),
        "steps".into(),
        "FNV-1a pass, µs".into(),
    ];
    for machine in &machines {
        cells.push(format!("evaluate / FNV, {}", machine.name()));
    }
    for machine in &machines[1..] {
        cells.push(format!("evaluate, {} / reference", machine.name()));
        cells.push(format!("check, {} / reference", machine.name()));
    }
    header(&cells);
    for family in &FAMILIES {
        row(&speed_row(family, &machines, rounds));
    }
    println!();
}

fn speed_row(family: &Family, machines: &[Box<dyn Calls>], rounds: usize) -> Vec<String> {
    let streams = (family.set)(4);
    let ([.., steps, bytes], _) = finished(&Reference, family, &streams);
    let mut things = vec![hashing(streams.parts())];
    for machine in machines {
        things.push(evaluation(&**machine, &streams));
        things.push(checking(&**machine, &streams));
    }
    let times = measure(&mut things, rounds);
    let (hash, calls) = times.split_first().expect("a hash pass");
    let calls: Vec<&[Times]> = calls.chunks(2).collect();
    let mut cells = vec![
        family.name.to_string(),
        input(&streams).to_string(),
        bytes.to_string(),
        steps.to_string(),
        format!("{:.1}", hash.median() * 1e6),
    ];
    cells.extend(calls.iter().map(|call| with_quartiles(call[0].ratio(hash))));
    for call in &calls[1..] {
        cells.extend([0, 1].map(|which| with_quartiles(call[which].ratio(&calls[0][which]))));
    }
    cells
}

/// What packing and unpacking take: the one chains its checks block after block, the other knows where
/// each starts from beforehand.
fn packing_table(rounds: usize) {
    let (machines, payload) = (machines(), longest_payload());
    let stream = packed_by(&Reference, VALUE, &payload);
    println!("Packing and unpacking of 128 blocks.\n");
    let mut cells = vec!["call".to_string(), "FNV-1a pass, µs".into()];
    for machine in &machines {
        cells.push(format!("call / FNV, {}", machine.name()));
    }
    for machine in &machines[1..] {
        cells.push(format!("{} / reference", machine.name()));
    }
    header(&cells);
    let mut things = vec![hashing([&stream[..]])];
    for machine in &machines {
        things.push(packing(&**machine, &payload));
        things.push(unpacking(&**machine, &stream));
    }
    let times = measure(&mut things, rounds);
    let (hash, calls) = times.split_first().expect("a hash pass");
    let calls: Vec<&[Times]> = calls.chunks(2).collect();
    for (which, name) in ["pack", "unpack"].into_iter().enumerate() {
        let mut cells = vec![name.to_string(), format!("{:.1}", hash.median() * 1e6)];
        cells.extend(
            calls
                .iter()
                .map(|call| with_quartiles(call[which].ratio(hash))),
        );
        let others = calls[1..].iter();
        cells.extend(others.map(|call| with_quartiles(call[which].ratio(&calls[0][which]))));
        row(&cells);
    }
    println!();
}

/// What unescaping takes, against a pass over the escaped text.
fn unescape_table(rounds: usize) {
    let machines = machines();
    println!("Unescaping of 64,504 characters.\n");
    let mut cells = ["text", "bytes in", "bytes out", "FNV-1a pass, µs"]
        .map(String::from)
        .to_vec();
    for machine in &machines {
        cells.push(format!("call / FNV, {}", machine.name()));
    }
    for machine in &machines[1..] {
        cells.push(format!("{} / reference", machine.name()));
    }
    header(&cells);
    for (name, text) in &escaped_texts() {
        row(&unescape_row(name, text, &machines, rounds));
    }
    println!();
}

fn unescape_row(
    name: &str,
    text: &[u8],
    machines: &[Box<dyn Calls>],
    rounds: usize,
) -> Vec<String> {
    let (fields, _) = unescaped(&Reference, text).expect("the reference unescapes");
    let mut things = vec![hashing([text])];
    for machine in machines {
        things.push(unescaping(&**machine, text));
    }
    let times = measure(&mut things, rounds);
    let (hash, calls) = times.split_first().expect("a hash pass");
    let mut cells = vec![
        name.to_string(),
        text.len().to_string(),
        fields[4].to_string(),
        format!("{:.1}", hash.median() * 1e6),
    ];
    cells.extend(calls.iter().map(|call| with_quartiles(call.ratio(hash))));
    let others = calls[1..].iter();
    cells.extend(others.map(|call| with_quartiles(call.ratio(&calls[0]))));
    cells
}

/// What a machine answers and writes on an escaped text, which it must take, if it has the call.
fn unescaped(machine: &dyn Calls, text: &[u8]) -> Option<(Fields, Vec<u8>)> {
    let mut out = vec![0; text.len()];
    let fields = machine.unescape(text, &mut out)?;
    assert_eq!(fields[0], 0, "{}: unescaping", machine.name());
    Some((fields, out))
}

fn growth_table(rounds: usize) {
    let machines = machines();
    println!("Growth from half size to full size; linear growth is a time of at most the input.\n");
    let mut cells = vec!["set".to_string(), "input".into(), "steps".into()];
    for machine in &machines {
        cells.push(format!("evaluate, {}", machine.name()));
        cells.push(format!("check, {}", machine.name()));
    }
    header(&cells);
    for family in FAMILIES.iter().filter(|family| family.grows) {
        row(&growth_row(family, &machines, rounds));
    }
    println!();
}

fn growth_row(family: &Family, machines: &[Box<dyn Calls>], rounds: usize) -> Vec<String> {
    let (half, full) = ((family.set)(2), (family.set)(4));
    let steps = |streams: &Streams| finished(&Reference, family, streams).0[3] as f64;
    let mut cells = vec![
        family.name.to_string(),
        format!("{:.2}", input(&full) as f64 / input(&half) as f64),
        format!("{:.2}", steps(&full) / steps(&half)),
    ];
    for machine in machines {
        let mut things = vec![
            evaluation(&**machine, &half),
            evaluation(&**machine, &full),
            checking(&**machine, &half),
            checking(&**machine, &full),
        ];
        let times = measure(&mut things, rounds);
        cells.push(with_quartiles(times[1].ratio(&times[0])));
        cells.push(with_quartiles(times[3].ratio(&times[2])));
    }
    cells
}

/// A new build, or the last of the machines, against an old one, which must answer the same, each on
/// streams of its own packing.
fn against_table(new: Option<&Loaded>, old: &dyn Calls, rounds: usize) {
    let machines = machines();
    let linked = &**machines.last().expect("a machine");
    let new = new.map_or(linked, |build| build);
    println!("New: {}. Old: {}.\n", new.name(), old.name());
    header(&["set", "bytes in", "evaluate, new / old", "check, new / old"].map(String::from));
    for family in &FAMILIES {
        row(&against_row(family, new, old, rounds));
    }
    println!();
    header(
        &[
            "bytes of 128 blocks",
            "pack, new / old",
            "unpack, new / old",
        ]
        .map(String::from),
    );
    row(&against_packing_row(new, old, rounds));
    println!();
    header(&["text", "bytes in", "unescape, new / old"].map(String::from));
    for (name, text) in &escaped_texts() {
        row(&against_unescape_row(name, text, new, old, rounds));
    }
    println!();
}

fn against_row(family: &Family, new: &dyn Calls, old: &dyn Calls, rounds: usize) -> Vec<String> {
    let streams = (family.set)(4);
    let mut cells = vec![family.name.to_string(), input(&streams).to_string()];
    let [streams, olds] = [new, old].map(|machine| set_packed_by(machine, &streams));
    // A form that an older build doesn't know, or more productions than it takes.
    if old.check(&olds.grammar, &olds.templates)[0] == 3 {
        cells.extend(["no such layout in the old".into(), String::new()]);
        return cells;
    }
    let answers = finished(new, family, &streams);
    let same = answers == finished(old, family, &olds);
    assert!(same, "{}: other answers", family.name);
    let things = [
        evaluation(new, &streams),
        evaluation(old, &olds),
        checking(new, &streams),
        checking(old, &olds),
    ];
    cells.extend(new_over_old(things, rounds));
    cells
}

fn against_packing_row(new: &dyn Calls, old: &dyn Calls, rounds: usize) -> Vec<String> {
    let payload = longest_payload();
    let [stream, olds] = [new, old].map(|machine| packed_by(machine, VALUE, &payload));
    let things = [
        packing(new, &payload),
        packing(old, &payload),
        unpacking(new, &stream),
        unpacking(old, &olds),
    ];
    let mut cells = vec![stream.len().to_string()];
    cells.extend(new_over_old(things, rounds));
    cells
}

fn against_unescape_row(
    name: &str,
    text: &[u8],
    new: &dyn Calls,
    old: &dyn Calls,
    rounds: usize,
) -> Vec<String> {
    let mut cells = vec![name.to_string(), text.len().to_string()];
    let Some(answers) = unescaped(old, text) else {
        cells.push("no such call in the old".into());
        return cells;
    };
    let same = unescaped(new, text) == Some(answers);
    assert!(same, "{name}: other answers");
    let things = [unescaping(new, text), unescaping(old, text)];
    cells.extend(new_over_old(things, rounds));
    cells
}

/// The ratios of some calls, each a new one followed by an old one.
fn new_over_old<const COUNT: usize>(mut things: [Thing<'_>; COUNT], rounds: usize) -> Vec<String> {
    let times = measure(&mut things, rounds);
    let pairs = times.chunks_exact(2);
    pairs
        .map(|pair| with_quartiles(pair[0].ratio(&pair[1])))
        .collect()
}

/// The ratio of a thing to itself says how much a ratio is worth.
fn noise_line(rounds: usize) {
    let streams = podcast::feed(4);
    let mut things = vec![
        evaluation(&Reference, &streams),
        evaluation(&Reference, &streams),
    ];
    let times = measure(&mut things, rounds);
    let ratio = with_quartiles(times[0].ratio(&times[1]));
    println!("Noise: the reference against itself on the podcast feed: {ratio}.");
}
