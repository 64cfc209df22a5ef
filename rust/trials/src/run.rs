//! Runs cases by their seed and counts what they reach.

use std::fmt;

use build::{due_start, mend_from, BLOCK, PAYLOAD};

use crate::compare::{self, Call, Conversion, Difference};
use crate::damage::damage;
use crate::escapes;
use crate::generate::{self, Streams};
use crate::machine::{Fields, Machine};
use crate::random::Random;
use crate::uploads;

/// How often each answer number was reached.
#[derive(Clone, Debug, Default, PartialEq, Eq)]
pub struct Tally {
    /// Cases, by the number that their first evaluate call answered.
    pub cases: [usize; 13],
    /// Evaluate calls by number.
    pub evaluate: [usize; 13],
    /// Check calls by number.
    pub check: [usize; 13],
    /// Packing and unpacking calls by number.
    pub packing: [usize; 13],
    /// Unescape calls by number.
    pub unescape: [usize; 13],
    /// Single blocks that were refused, and those whose payload was given back.
    pub blocks: [usize; 2],
    /// First evaluate calls and calls of unpacking that answered 2 at block 0, at 1 to 3, and at a
    /// later one.
    pub places: [usize; 3],
}

impl Tally {
    /// The numbers that no evaluate call answered.
    #[must_use]
    pub fn absent(&self) -> Vec<usize> {
        (0..13).filter(|&n| self.evaluate[n] == 0).collect()
    }

    /// Counts the place of an answer 2.
    fn count_place(&mut self, [number, _, place, ..]: Fields) {
        if number == 2 {
            let group = match place {
                0 => 0,
                1..=3 => 1,
                _ => 2,
            };
            self.places[group] += 1;
        }
    }

    fn add(&mut self, other: &Tally) {
        let rows = [
            (&mut self.cases, &other.cases),
            (&mut self.evaluate, &other.evaluate),
            (&mut self.check, &other.check),
            (&mut self.packing, &other.packing),
            (&mut self.unescape, &other.unescape),
        ];
        for (mine, theirs) in rows {
            for (count, more) in mine.iter_mut().zip(theirs) {
                *count += more;
            }
        }
        let more = other.blocks.iter().chain(&other.places);
        let mine = self.blocks.iter_mut().chain(&mut self.places);
        mine.zip(more).for_each(|(count, more)| *count += more);
    }
}

impl fmt::Display for Tally {
    fn fmt(&self, f: &mut fmt::Formatter<'_>) -> fmt::Result {
        let share = |count: usize, row: &[usize]| {
            100.0 * count as f64 / row.iter().sum::<usize>().max(1) as f64
        };
        writeln!(
            f,
            "number   cases            evaluate         check            packing          unescape"
        )?;
        for number in 0..13 {
            write!(f, "{number:>6}")?;
            let calls = [&self.evaluate, &self.check, &self.packing, &self.unescape];
            for row in [&self.cases].into_iter().chain(calls) {
                write!(f, "{:>8} {:>5.1} % ", row[number], share(row[number], row))?;
            }
            writeln!(f)?;
        }
        let [first, early, late] = self.places;
        writeln!(
            f,
            "2 at block 0: {first}, at 1 to 3: {early}, later: {late}"
        )?;
        let [refused, given] = self.blocks;
        write!(f, "single blocks: {given} given back, {refused} refused")
    }
}

/// A difference, and how to make it again.
#[derive(Clone, Debug)]
pub struct Failure {
    /// The seed of the run.
    pub seed: u64,
    /// The number of the case.
    pub case: u64,
    /// What differs.
    pub difference: Difference,
    /// The streams, to be kept for a look.
    pub streams: Box<Streams>,
}

impl fmt::Display for Failure {
    fn fmt(&self, f: &mut fmt::Formatter<'_>) -> fmt::Result {
        let Failure {
            seed,
            case,
            difference,
            ..
        } = self;
        write!(f, "--seed {seed} --case {case}: {difference}")
    }
}

/// Runs the cases of a seed on two machines.
///
/// # Errors
/// The first difference.
pub fn run(
    one: &dyn Machine,
    two: &dyn Machine,
    seed: u64,
    cases: impl IntoIterator<Item = u64>,
) -> Result<Tally, Failure> {
    let mut tally = Tally::default();
    for case in cases {
        let mut random = Random::for_case(seed, case);
        let streams = draw(&mut random);
        let counted =
            try_streams(one, two, &mut random, &streams).map_err(|difference| Failure {
                seed,
                case,
                difference,
                streams: Box::new(streams),
            })?;
        tally.add(&counted);
    }
    Ok(tally)
}

/// The streams of a case: a set, damaged in half of the cases.
fn draw(random: &mut Random) -> Streams {
    let mut streams = generate::streams(random);
    if random.once_in(2) {
        let other = generate::accepted(random);
        for _ in 0..random.between(1, 2) {
            damage(random, &mut streams, &other);
        }
    }
    streams
}

/// Fuel for a first run: sets that go round in circles end here.
const MUCH: u32 = 100_000;

/// Compares two machines on these streams: a check call, some evaluate calls around the limits that
/// the first one meets, and a call each of packing or unpacking, unescape and a single block.
///
/// # Errors
/// The first difference.
pub fn try_streams(
    one: &dyn Machine,
    two: &dyn Machine,
    random: &mut Random,
    streams: &Streams,
) -> Result<Tally, Difference> {
    let mut tally = Tally::default();
    let parts = streams.parts();
    let checked = compare::check(one, two, parts[0], parts[1])?;
    tally.check[checked[0] as usize] += 1;
    let whole = Call {
        fuel: MUCH,
        out: 65_536,
        scratch: 4_800,
    };
    let first = compare::evaluate(one, two, parts, whole)?;
    tally.cases[first[0] as usize] += 1;
    tally.evaluate[first[0] as usize] += 1;
    tally.count_place(first);
    for call in more_calls(random, first) {
        let fields = compare::evaluate(one, two, parts, call)?;
        tally.evaluate[fields[0] as usize] += 1;
    }
    try_packing(one, two, random, streams, &mut tally)?;
    let unescaped = try_unescape(one, two, random)?;
    tally.unescape[unescaped[0] as usize] += 1;
    let stream = *random.pick(&parts);
    let given = try_single_block(one, two, random, stream)?;
    tally.blocks[usize::from(given > 0)] += 1;
    Ok(tally)
}

/// Calls around the limits that the first run met or just missed.
fn more_calls(random: &mut Random, [number, _, _, steps, bytes]: Fields) -> Vec<Call> {
    let lengths = [0, 1, 4_799, 4_800, 4_801, 6_000];
    if (1..=8).contains(&number) {
        return vec![Call {
            fuel: random.number() as u32,
            out: random.below(300),
            scratch: *random.pick(&lengths),
        }];
    }
    let (steps, bytes) = (steps as u32, bytes as usize);
    let mut call = || Call {
        fuel: match random.below(8) {
            0 => 0,
            1 => random.below(steps as usize + 1) as u32,
            2 => steps.saturating_sub(1),
            3 => steps,
            4 => steps.saturating_add(1).min(MUCH),
            5 if number != 10 => u32::MAX,
            _ => MUCH,
        },
        out: match random.below(8) {
            0 => 0,
            1 => bytes.saturating_sub(1),
            6 => bytes.saturating_sub(random.between(2, 7)),
            2 => bytes,
            3 => bytes + 1,
            4 => random.below(bytes + 1),
            _ => 65_536,
        },
        scratch: match random.below(6) {
            0 => *random.pick(&lengths),
            _ => 4_800,
        },
    };
    (0..6).map(|_| call()).collect()
}

fn try_packing(
    one: &dyn Machine,
    two: &dyn Machine,
    random: &mut Random,
    streams: &Streams,
    tally: &mut Tally,
) -> Result<(), Difference> {
    let index = random.below(3);
    let stream = streams.parts()[index];
    let own = index as u8 + 1;
    let kind = match random.below(4) {
        0 => *random.pick(&[1, 2, 3, 0, 4, 255]),
        _ => own,
    };
    let (how, input) = match random.below(4) {
        0 => (Conversion::Unpack(kind), stream.to_vec()),
        1 => {
            let stream = uploads::stream(random, own, stream);
            (Conversion::Unpack(kind), stream)
        }
        _ => {
            let length = payload_length(random);
            let payload = (0..length).map(|_| random.byte());
            (Conversion::Pack(kind), payload.collect())
        }
    };
    let unpacks = how == Conversion::Unpack(kind);
    let needed = match unpacks {
        true => input.len() / BLOCK * PAYLOAD,
        false => input.len().div_ceil(PAYLOAD) * BLOCK,
    };
    let fields = compare::conversion(one, two, how, &input, room(random, needed))?;
    tally.packing[fields[0] as usize] += 1;
    if unpacks {
        tally.count_place(fields);
    }
    Ok(())
}

/// Room for so many bytes, at times too little or too much.
fn room(random: &mut Random, needed: usize) -> usize {
    match random.below(5) {
        0 => needed.saturating_sub(1),
        1 => random.below(needed + 1),
        2 => needed + random.below(600),
        _ => needed,
    }
}

/// An unescape call, around the room that the plain text takes.
fn try_unescape(
    one: &dyn Machine,
    two: &dyn Machine,
    random: &mut Random,
) -> Result<Fields, Difference> {
    let text = escapes::text(random);
    let [.., needed] = one.unescape(&text, &mut vec![0; text.len()]);
    let needed = match random.once_in(4) {
        true => text.len(),
        false => needed as usize,
    };
    let room = room(random, needed);
    compare::conversion(one, two, Conversion::Unescape, &text, room)
}

/// A single block of a stream from the start that it has there, or from some other, which its check
/// may have been mended from.
fn try_single_block(
    one: &dyn Machine,
    two: &dyn Machine,
    random: &mut Random,
    stream: &[u8],
) -> Result<usize, Difference> {
    let number = random.below(stream.len() / BLOCK);
    let length = match random.below(8) {
        0 => *random.pick(&[BLOCK - 1, BLOCK + 1, 0]),
        _ => BLOCK,
    };
    let from = &stream[number * BLOCK..];
    let mut block = from[..length.min(from.len())].to_vec();
    let start = match random.once_in(2) {
        true => due_start(stream, number),
        false => uploads::some_start(random, stream),
    };
    if random.once_in(4) {
        mend_from(&mut block, start);
    }
    compare::block_payload(one, two, &block, start)
}

fn payload_length(random: &mut Random) -> usize {
    match random.below(6) {
        0 => *random.pick(&[0, 7, 8, 9, 496, 504, 512, 1008, 64_504, 64_512, 64_520]),
        1 => random.below(2_000),
        2 => 8 * random.between(200, 1_300),
        _ => 8 * random.between(1, 200),
    }
}
