//! The proved library, through the safe wrapper `feed`.
//!
//! It is bound by the feature `proved`, which is on by default: the tests, the binary `trials` and
//! the benchmarks compare it with the reference. With `--no-default-features` they do without it.

use crate::machine::{Fields, Machine};

/// The proved library.
#[derive(Clone, Copy, Debug)]
pub struct Proved;

impl Machine for Proved {
    fn name(&self) -> String {
        "proved".into()
    }

    fn check(&self, grammar: &[u8], templates: &[u8]) -> Fields {
        feed::check(grammar, templates).fields()
    }

    fn evaluate(
        &self,
        [grammar, templates, value]: [&[u8]; 3],
        fuel: u32,
        out: &mut [u8],
        scratch: &mut [u16],
    ) -> Fields {
        feed::evaluate(grammar, templates, value, fuel, out, scratch).fields()
    }

    fn pack(&self, kind: u8, payload: &[u8], out: &mut [u8]) -> Fields {
        feed::pack(kind, payload, out).fields()
    }

    fn unpack(&self, kind: u8, stream: &[u8], out: &mut [u8]) -> Fields {
        feed::unpack(kind, stream, out).fields()
    }

    fn unescape(&self, text: &[u8], out: &mut [u8]) -> Fields {
        feed::unescape(text, out).fields()
    }

    fn block_payload<'a>(&self, block: &'a [u8], start: u32) -> &'a [u8] {
        feed::block_payload(block, start)
    }
}
