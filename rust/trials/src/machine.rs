//! What is compared: an implementation of the six calls.

/// Number, stream kind, place, steps and bytes of an answer.
pub type Fields = [u64; 5];

/// An implementation of the page machine.
pub trait Machine {
    /// What to call it in a report.
    fn name(&self) -> String;

    /// The check call.
    fn check(&self, grammar: &[u8], templates: &[u8]) -> Fields;

    /// The evaluate call on the three streams.
    fn evaluate(
        &self,
        streams: [&[u8]; 3],
        fuel: u32,
        out: &mut [u8],
        scratch: &mut [u16],
    ) -> Fields;

    /// Packing.
    fn pack(&self, kind: u8, payload: &[u8], out: &mut [u8]) -> Fields;

    /// Unpacking.
    fn unpack(&self, kind: u8, stream: &[u8], out: &mut [u8]) -> Fields;

    /// The plain text that an escaped one was made of.
    fn unescape(&self, text: &[u8], out: &mut [u8]) -> Fields;

    /// The payload of a single block whose check starts from a number, as a part of it, or an empty
    /// part.
    fn block_payload<'a>(&self, block: &'a [u8], start: u32) -> &'a [u8];
}

/// The reference implementation.
#[derive(Clone, Copy, Debug)]
pub struct Reference;

fn fields(answer: reference::Answer) -> Fields {
    [
        answer.number.into(),
        answer.stream.into(),
        answer.place as u64,
        answer.steps.into(),
        answer.bytes as u64,
    ]
}

impl Machine for Reference {
    fn name(&self) -> String {
        "reference".into()
    }

    fn check(&self, grammar: &[u8], templates: &[u8]) -> Fields {
        fields(reference::check(grammar, templates))
    }

    fn evaluate(
        &self,
        [grammar, templates, value]: [&[u8]; 3],
        fuel: u32,
        out: &mut [u8],
        scratch: &mut [u16],
    ) -> Fields {
        fields(reference::evaluate(
            grammar, templates, value, fuel, out, scratch,
        ))
    }

    fn pack(&self, kind: u8, payload: &[u8], out: &mut [u8]) -> Fields {
        fields(reference::pack(kind, payload, out))
    }

    fn unpack(&self, kind: u8, stream: &[u8], out: &mut [u8]) -> Fields {
        fields(reference::unpack(kind, stream, out))
    }

    fn unescape(&self, text: &[u8], out: &mut [u8]) -> Fields {
        fields(reference::unescape(text, out))
    }

    fn block_payload<'a>(&self, block: &'a [u8], start: u32) -> &'a [u8] {
        reference::block_payload(block, start)
    }
}
