//! Compares two machines in every field and every lent byte, with guards around the buffers.

use std::fmt;

use crate::machine::{Fields, Machine};

/// What an evaluate call is lent beside the streams.
#[derive(Clone, Copy, Debug)]
pub struct Call {
    /// The fuel.
    pub fuel: u32,
    /// The output's length.
    pub out: usize,
    /// The scratch's length in 16-bit numbers.
    pub scratch: usize,
}

/// Two machines differ, or one breaks a promise of the paper by itself.
#[derive(Clone, Debug)]
pub struct Difference(pub String);

impl fmt::Display for Difference {
    fn fmt(&self, f: &mut fmt::Formatter<'_>) -> fmt::Result {
        f.write_str(&self.0)
    }
}

/// Elements on either side of a lent buffer that nobody may touch.
const GUARD: usize = 64;

/// A buffer to lend, between guards, filled with a pattern.
struct Lent<T> {
    all: Vec<T>,
    before: Vec<T>,
}

impl<T: Copy + PartialEq> Lent<T> {
    fn new(length: usize, pattern: impl Fn(usize) -> T) -> Self {
        let all: Vec<T> = (0..length + 2 * GUARD).map(pattern).collect();
        let before = all.clone();
        Lent { all, before }
    }

    fn part(&mut self) -> &mut [T] {
        let end = self.all.len() - GUARD;
        &mut self.all[GUARD..end]
    }

    fn lent(&self) -> &[T] {
        &self.all[GUARD..self.all.len() - GUARD]
    }

    fn guards_kept(&self) -> bool {
        let end = self.all.len() - GUARD;
        self.all[..GUARD] == self.before[..GUARD] && self.all[end..] == self.before[end..]
    }

    /// Whether everything from an index of the lent part on is as it was.
    fn kept_from(&self, index: usize) -> bool {
        let start = (GUARD + index).min(self.all.len());
        self.all[start..] == self.before[start..]
    }
}

fn bytes(length: usize) -> Lent<u8> {
    Lent::new(length, |i| (i * 31 + 7) as u8)
}

fn numbers(length: usize) -> Lent<u16> {
    Lent::new(length, |i| (i as u16).wrapping_mul(257) | 1)
}

/// What an evaluate call answered and left.
struct Evaluated {
    fields: Fields,
    out: Lent<u8>,
    scratch: Lent<u16>,
}

fn evaluated(machine: &dyn Machine, streams: [&[u8]; 3], call: Call) -> Evaluated {
    let (mut out, mut scratch) = (bytes(call.out), numbers(call.scratch));
    let fields = machine.evaluate(streams, call.fuel, out.part(), scratch.part());
    Evaluated {
        fields,
        out,
        scratch,
    }
}

impl Evaluated {
    /// The promises about lent bytes that need no second machine.
    fn broken_promise(&self) -> Option<&'static str> {
        let [number, stream, place, steps, written] = self.fields;
        let walked = number == 0 || (10..=12).contains(&number);
        let zeroed = self.scratch.lent().iter().all(|&number| number == 0);
        let broken = [
            (!self.out.guards_kept(), "a guard of the output"),
            (!self.scratch.guards_kept(), "a guard of the scratch"),
            (number > 12, "an unknown number"),
            (!self.out.kept_from(written as usize), "bytes past the text"),
            (walked && !zeroed, "scratch that isn't zero"),
            (!walked && !self.scratch.kept_from(0), "scratch not kept"),
            (!walked && (steps, written) != (0, 0), "counts of a refusal"),
            (number == 0 && (stream, place) != (0, 0), "a finished place"),
        ];
        broken
            .iter()
            .find_map(|&(broken, what)| broken.then_some(what))
    }
}

/// Compares an evaluate call; answers its fields where all agree.
///
/// # Errors
/// The first difference.
pub fn evaluate(
    one: &dyn Machine,
    two: &dyn Machine,
    streams: [&[u8]; 3],
    call: Call,
) -> Result<Fields, Difference> {
    agreed(one, two, streams, call).map(|outcome| outcome.fields)
}

/// Compares an evaluate call with enough of all; answers its fields, and the text that is left.
///
/// # Errors
/// The first difference.
pub fn rendered(
    one: &dyn Machine,
    two: &dyn Machine,
    streams: [&[u8]; 3],
) -> Result<(Fields, Vec<u8>), Difference> {
    let enough = Call {
        fuel: 100_000,
        out: 65_536,
        scratch: 4_800,
    };
    let outcome = agreed(one, two, streams, enough)?;
    let written = outcome.fields[4] as usize;
    Ok((outcome.fields, outcome.out.lent()[..written].to_vec()))
}

fn agreed(
    one: &dyn Machine,
    two: &dyn Machine,
    streams: [&[u8]; 3],
    call: Call,
) -> Result<Evaluated, Difference> {
    let (first, second) = (evaluated(one, streams, call), evaluated(two, streams, call));
    for (machine, outcome) in [(one, &first), (two, &second)] {
        if let Some(what) = outcome.broken_promise() {
            let (name, fields) = (machine.name(), outcome.fields);
            return Err(Difference(format!(
                "evaluate {call:?}: {name} breaks a promise: {what} (answer {fields:?})"
            )));
        }
    }
    same_fields(one, two, first.fields, second.fields, || {
        format!("evaluate {call:?}")
    })?;
    if first.out.all != second.out.all || first.scratch.all != second.scratch.all {
        return Err(Difference(format!(
            "evaluate {call:?}: the lent bytes differ (answer {:?})",
            first.fields
        )));
    }
    Ok(first)
}

/// Compares a check call; answers its fields where they agree.
///
/// # Errors
/// The first difference.
pub fn check(
    one: &dyn Machine,
    two: &dyn Machine,
    grammar: &[u8],
    templates: &[u8],
) -> Result<Fields, Difference> {
    let (first, second) = (one.check(grammar, templates), two.check(grammar, templates));
    same_fields(one, two, first, second, || "check".into())
}

/// A call that makes bytes of bytes.
#[derive(Clone, Copy, Debug, PartialEq, Eq)]
pub enum Conversion {
    /// A payload into blocks of a kind.
    Pack(u8),
    /// Blocks of a kind into a payload.
    Unpack(u8),
    /// An escaped text into the plain one.
    Unescape,
}

impl Conversion {
    fn call(self, machine: &dyn Machine, input: &[u8], out: &mut [u8]) -> Fields {
        match self {
            Conversion::Pack(kind) => machine.pack(kind, input, out),
            Conversion::Unpack(kind) => machine.unpack(kind, input, out),
            Conversion::Unescape => machine.unescape(input, out),
        }
    }
}

/// Compares a conversion into a buffer of `length` bytes.
///
/// # Errors
/// The first difference.
pub fn conversion(
    one: &dyn Machine,
    two: &dyn Machine,
    conversion: Conversion,
    input: &[u8],
    length: usize,
) -> Result<Fields, Difference> {
    let call = |machine: &dyn Machine| {
        let mut out = bytes(length);
        let fields = conversion.call(machine, input, out.part());
        (fields, out)
    };
    let ((first, out), (second, other)) = (call(one), call(two));
    let what = || format!("{conversion:?}, {} into {length}", input.len());
    for (machine, fields, out) in [(one, first, &out), (two, second, &other)] {
        if !out.guards_kept() || !out.kept_from(fields[4] as usize) {
            let (name, what) = (machine.name(), what());
            return Err(Difference(format!("{what}: {name} wrote too much")));
        }
        if (fields[1], fields[3]) != (0, 0) || (fields[0] != 0 && fields[4] != 0) {
            let (name, what) = (machine.name(), what());
            return Err(Difference(format!("{what}: {name} answers {fields:?}")));
        }
    }
    same_fields(one, two, first, second, what)?;
    if out.all != other.all {
        return Err(Difference(format!("{}: the bytes differ", what())));
    }
    Ok(first)
}

/// Compares the payload of a single block from a start, which must be a part of it.
///
/// # Errors
/// The first difference.
pub fn block_payload(
    one: &dyn Machine,
    two: &dyn Machine,
    block: &[u8],
    start: u32,
) -> Result<usize, Difference> {
    let [first, second] = [one, two].map(|machine| machine.block_payload(block, start));
    let starts_well = |part: &[u8]| part.is_empty() || part.as_ptr() == block[4..].as_ptr();
    if first != second || !starts_well(first) || !starts_well(second) {
        return Err(Difference(format!(
            "block of {} bytes from {start}: {} gives {} bytes, {} gives {}",
            block.len(),
            one.name(),
            first.len(),
            two.name(),
            second.len()
        )));
    }
    Ok(first.len())
}

fn same_fields(
    one: &dyn Machine,
    two: &dyn Machine,
    first: Fields,
    second: Fields,
    what: impl Fn() -> String,
) -> Result<Fields, Difference> {
    if first == second {
        return Ok(first);
    }
    Err(Difference(format!(
        "{}: {} answers {first:?}, {} answers {second:?}",
        what(),
        one.name(),
        two.name()
    )))
}
