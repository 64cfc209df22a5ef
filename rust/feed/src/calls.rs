//! The six calls. This is the only file with `unsafe` code, and each call of the library stands alone
//! in its block.
//!
//! What all of them rely on: a slice's pointer is never null and is aligned, also where the slice is
//! empty (it dangles then, and the library reads no byte of a length of 0); a `&mut` slice overlaps
//! nothing else that is lent; and the library keeps no pointer after it has returned.

use crate::answer::Answer;
use crate::PAYLOAD_START;

/// The library's own names and forms; `include/feed.h` has them for C.
mod library {
    extern "C" {
        pub fn feed_check(
            grammar: *const u8,
            grammar_length: usize,
            templates: *const u8,
            templates_length: usize,
            answer: *mut u64,
        );
        pub fn feed_evaluate(
            grammar: *const u8,
            grammar_length: usize,
            templates: *const u8,
            templates_length: usize,
            value: *const u8,
            value_length: usize,
            fuel: u32,
            output: *mut u8,
            output_length: usize,
            scratch: *mut u16,
            scratch_length: usize,
            answer: *mut u64,
        );
        pub fn feed_pack(
            kind: u8,
            payload: *const u8,
            payload_length: usize,
            output: *mut u8,
            output_length: usize,
            answer: *mut u64,
        );
        pub fn feed_unpack(
            kind: u8,
            stream: *const u8,
            stream_length: usize,
            output: *mut u8,
            output_length: usize,
            answer: *mut u64,
        );
        pub fn feed_unescape(
            text: *const u8,
            text_length: usize,
            output: *mut u8,
            output_length: usize,
            answer: *mut u64,
        );
        pub fn feed_block_payload(block: *const u8, block_length: usize, start: u32) -> usize;
    }
}

/// Judges a grammar and a template set: the refusals 1 to 7, in their order.
///
/// Accepted, the answer is five zeros. A set that is accepted can't be brought to a halt halfway by any
/// well-formed value of its declared type: [`evaluate`] finishes it, or meets a limit (fuel, depth,
/// output).
///
/// ```
/// # let folder = concat!(env!("CARGO_MANIFEST_DIR"), "/../../examples/harbour/");
/// # let grammar = std::fs::read(format!("{folder}grammar.blk")).unwrap();
/// # let templates = std::fs::read(format!("{folder}template.blk")).unwrap();
/// assert!(feed::check(&grammar, &templates).finished().is_ok());
///
/// let refusal = feed::check(&grammar, &[]).finished().unwrap_err();
/// assert_eq!(refusal, feed::Refusal::Length { stream: feed::Stream::Templates });
/// println!("{refusal}"); // the templates: the length is zero, .. (refusal 1)
/// ```
#[must_use]
pub fn check(grammar: &[u8], templates: &[u8]) -> Answer {
    let mut answer = [0; 5];
    // SAFETY: both streams are live slices with their own lengths, and are only read; `answer` is five
    // numbers of this frame. The library asks nothing of what the streams hold.
    unsafe {
        library::feed_check(
            grammar.as_ptr(),
            grammar.len(),
            templates.as_ptr(),
            templates.len(),
            answer.as_mut_ptr(),
        );
    }
    Answer::from_fields(answer)
}

/// Writes the text of a value into `output`: all refusals, in their order.
///
/// `fuel` is the most nodes that may be visited. `scratch` has at least [`SCRATCH`](crate::SCRATCH)
/// numbers, whatever they hold. For the refusals 1 to 9 output and scratch keep their bytes. Otherwise
/// the first [`bytes`](Answer::bytes) bytes of the output are what the walk produced, the rest of the
/// output is untouched, and all of the scratch is zero.
///
/// ```
/// # let folder = concat!(env!("CARGO_MANIFEST_DIR"), "/../../examples/harbour/");
/// # let read = |name: &str| std::fs::read(format!("{folder}{name}")).unwrap();
/// # let (grammar, templates, value) = (read("grammar.blk"), read("template.blk"), read("value.blk"));
/// let mut output = [b'.'; 20];
/// let mut scratch = [7; feed::SCRATCH];
/// let answer = feed::evaluate(&grammar, &templates, &value, 7, &mut output, &mut scratch);
/// assert_eq!(answer.fields(), [0, 0, 0, 7, 16]);
/// assert_eq!(output, *"[<ab><αβγδ>]....".as_bytes());
/// assert!(scratch.iter().all(|&number| number == 0));
///
/// // One step less of fuel: the walk ends before it visits the place of the second title.
/// let answer = feed::evaluate(&grammar, &templates, &value, 6, &mut output, &mut scratch);
/// assert_eq!(answer.refusal(), Some(feed::Refusal::FuelSpent { node: 9 }));
/// assert_eq!(answer.written(&output), b"[<ab><");
/// ```
#[must_use]
pub fn evaluate(
    grammar: &[u8],
    templates: &[u8],
    value: &[u8],
    fuel: u32,
    output: &mut [u8],
    scratch: &mut [u16],
) -> Answer {
    let mut answer = [0; 5];
    // SAFETY: the three streams are live slices with their own lengths, and are only read; output and
    // scratch are lent exclusively, so they overlap neither each other nor a stream; `answer` is five
    // numbers of this frame. The library asks nothing of what any of them holds.
    unsafe {
        library::feed_evaluate(
            grammar.as_ptr(),
            grammar.len(),
            templates.as_ptr(),
            templates.len(),
            value.as_ptr(),
            value.len(),
            fuel,
            output.as_mut_ptr(),
            output.len(),
            scratch.as_mut_ptr(),
            scratch.len(),
            answer.as_mut_ptr(),
        );
    }
    Answer::from_fields(answer)
}

/// Turns a payload into blocks of a kind, numbered from 0 and zero-filled at the end. The check of
/// block 0 starts from [`CHECK_START`](crate::CHECK_START), that of each other from the check before it.
///
/// The payload has 8 to 64,512 bytes, a multiple of 8. Tried are 1 (its length), 2 (a kind outside 1 to
/// 3) and 12 (the blocks don't fit the output). Refused, nothing is written, else only the bytes
/// counted.
///
/// ```
/// let record = [2, 1, 0, 0, 0, 0, 0, 0]; // a value stream's yes
/// let mut blocks = [0; feed::BLOCK];
/// let answer = feed::pack(3, &record, &mut blocks);
/// assert_eq!(answer.fields(), [0, 0, 0, 0, 512]);
/// assert_eq!(feed::block_payload(&blocks, feed::CHECK_START)[..8], record);
///
/// let answer = feed::pack(3, &record[..7], &mut blocks);
/// assert_eq!(answer.refusal(), Some(feed::Refusal::Length { stream: feed::Stream::Lent }));
/// ```
#[must_use]
pub fn pack(kind: u8, payload: &[u8], output: &mut [u8]) -> Answer {
    let mut answer = [0; 5];
    // SAFETY: the payload is a live slice with its own length, and is only read; the output is lent
    // exclusively; `answer` is five numbers of this frame. Any kind may be given.
    unsafe {
        library::feed_pack(
            kind,
            payload.as_ptr(),
            payload.len(),
            output.as_mut_ptr(),
            output.len(),
            answer.as_mut_ptr(),
        );
    }
    Answer::from_fields(answer)
}

/// Gives all payload bytes of a stream of a kind: 504 for each block, zero fill included.
///
/// Tried are 1 (the stream's length), 2 (a wrong block, or a kind outside 1 to 3) and 12 (the payload
/// doesn't fit the output). Refused, nothing is written, else only the bytes counted.
///
/// ```
/// let records = [2; 1000];
/// let mut blocks = [0; 2 * feed::BLOCK];
/// assert_eq!(feed::pack(1, &records, &mut blocks).bytes, 1024);
///
/// let mut payload = [9; 2 * feed::PAYLOAD];
/// assert_eq!(feed::unpack(1, &blocks, &mut payload).bytes, 1008);
/// assert_eq!(payload[..1000], records);
/// assert_eq!(payload[1000..], [0; 8]);
///
/// blocks[600] ^= 1;
/// let answer = feed::unpack(1, &blocks, &mut payload);
/// assert_eq!(answer.refusal(), Some(feed::Refusal::Block { stream: feed::Stream::Lent, block: 1 }));
/// ```
#[must_use]
pub fn unpack(kind: u8, stream: &[u8], output: &mut [u8]) -> Answer {
    let mut answer = [0; 5];
    // SAFETY: the stream is a live slice with its own length, and is only read; the output is lent
    // exclusively; `answer` is five numbers of this frame. Any kind may be given.
    unsafe {
        library::feed_unpack(
            kind,
            stream.as_ptr(),
            stream.len(),
            output.as_mut_ptr(),
            output.len(),
            answer.as_mut_ptr(),
        );
    }
    Answer::from_fields(answer)
}

/// Gives an editor back the plain text that an escaped one was made of: the inverse of what a place in
/// the position of an escaped class writes.
///
/// `&amp;`, `&lt;`, `&gt;`, `&quot;` and `&apos;` become the characters that they stand for. Any bytes of
/// any length may be lent; the call knows no class, and doesn't ask what XML 1.0 admits. Tried are 8
/// (escaping makes the text of no well-formed UTF-8: it has a bare one of the five characters, another
/// reference, such as `&#38;`, or bytes that are no UTF-8) and 12 (the plain text doesn't fit the output).
/// Refused, nothing is written, else only the bytes counted. The plain text is never longer than the
/// escaped one.
///
/// ```
/// let mut plain = [b'.'; 16];
/// let answer = feed::unescape(b"Salt &amp; Rope", &mut plain);
/// assert_eq!(answer.fields(), [0, 0, 0, 0, 11]);
/// assert_eq!(plain, *b"Salt & Rope.....");
///
/// for text in ["Salt & Rope", "Salt &#38; Rope", "Salt &amp Rope"] {
///     let refusal = feed::unescape(text.as_bytes(), &mut plain).finished().unwrap_err();
///     assert_eq!(refusal, feed::Refusal::NotEscaped);
/// }
/// let answer = feed::unescape(b"Salt &amp; Rope", &mut plain[..10]);
/// assert_eq!(answer.refusal(), Some(feed::Refusal::NoRoom));
/// ```
#[must_use]
pub fn unescape(text: &[u8], output: &mut [u8]) -> Answer {
    let mut answer = [0; 5];
    // SAFETY: the text is a live slice with its own length, and is only read; the output is lent
    // exclusively; `answer` is five numbers of this frame.
    unsafe {
        library::feed_unescape(
            text.as_ptr(),
            text.len(),
            output.as_mut_ptr(),
            output.len(),
            answer.as_mut_ptr(),
        );
    }
    Answer::from_fields(answer)
}

/// The payload of a single block, as a part of the lent bytes.
///
/// It is empty for a length other than 512, a kind outside 1 to 3, a byte 3 that isn't zero or a wrong
/// check. The check starts from `start`: [`CHECK_START`](crate::CHECK_START) for block 0 of a stream, and
/// for each other block the check of the block before it, which is that block's last four bytes. Any
/// number may be given.
///
/// The block's number isn't judged, and each kind of the three is taken: they are its bytes 0 and 1, and
/// its byte 2.
///
/// So a stream can be gone through block by block, with one block at hand at a time:
///
/// ```
/// /// The blocks before the first that is wrong or doesn't follow the one before it.
/// fn sound_blocks(stream: &[u8]) -> usize {
///     let (mut count, mut start) = (0, feed::CHECK_START);
///     for block in stream.chunks(feed::BLOCK) {
///         let payload = feed::block_payload(block, start);
///         if payload.is_empty() {
///             break;
///         }
///         count += 1; // or whatever is to be done with the payload
///         start = u32::from_le_bytes(*block.last_chunk().unwrap());
///     }
///     count
/// }
///
/// let [mut morning, mut evening] = [[0; 4 * feed::BLOCK]; 2];
/// for (upload, text) in [(&mut morning, b"sunrise."), (&mut evening, b"sunset..")] {
///     assert!(feed::pack(3, &text.repeat(4 * 63), upload).finished().is_ok());
/// }
/// assert_eq!(sound_blocks(&morning), 4);
///
/// // Two blocks of one upload, and the rest of another.
/// let joined = [&morning[..2 * feed::BLOCK], &evening[2 * feed::BLOCK..]].concat();
/// assert_eq!(sound_blocks(&joined), 2);
/// assert_eq!(sound_blocks(&morning[1..]), 0);
/// ```
#[must_use]
pub fn block_payload(block: &[u8], start: u32) -> &[u8] {
    // SAFETY: the block is a live slice with its own length, and is only read. Any start may be given.
    let length = unsafe { library::feed_block_payload(block.as_ptr(), block.len(), start) };
    block
        .get(PAYLOAD_START..PAYLOAD_START + length)
        .unwrap_or_default()
}
