//! The page machine for Rust: a safe wrapper over the static library of the Rattle crate `feed`,
//! whose every function is proved to meet its contract.
//!
//! A grammar, a template set and a value go in, each as a stream of 512-byte blocks; a text that the
//! grammar derives comes out, or one numbered refusal. Everything that a call writes to is lent by the
//! caller: nothing here allocates. Any bytes of any length may be lent. A call takes less than 256 KiB of
//! stack, as measured on the deepest sets; the tests run it on a thread of 512 KiB.
//!
//! | call | what it does |
//! |---|---|
//! | [`check`] | judges a grammar and a template set |
//! | [`evaluate`] | writes the text of a value into a lent output |
//! | [`pack`], [`unpack`] | turn records into blocks and back |
//! | [`unescape`] | gives back the plain text that an escaped one was made of |
//! | [`block_payload`] | gives the payload of a single block, where it lies, if its check follows the block before |
//!
//! All but the last give an [`Answer`]; [`Answer::finished`] turns it into a `Result` whose error is the
//! [`Refusal`] in plain words.
//!
//! # Lexemes
//!
//! A literal of the templates (else refusal 7) and a text of the value (else 8) is a lexeme of its class:
//! well-formed UTF-8 of least to most characters, each in a range of the class and among those that XML 1.0
//! admits: U+0009, U+000A, U+000D, U+0020-U+D7FF, U+E000-U+FFFD and U+10000-U+10FFFF. A range may hold
//! others, such as the vertical tab U+000B, and lets none of them in. A lexeme of an escaped class is the
//! escaped form of a plain one, and it is the plain characters that are judged. Keywords and separators are
//! no lexemes: they may hold any bytes.
//!
//! # Example
//!
//! ```
//! # let folder = concat!(env!("CARGO_MANIFEST_DIR"), "/../../examples/harbour/");
//! # let read = |name: &str| std::fs::read(format!("{folder}{name}")).unwrap();
//! let (grammar, templates, value) = (read("grammar.blk"), read("template.blk"), read("value.blk"));
//! let mut output = vec![0; 65_536];
//! let mut scratch = [0; feed::SCRATCH];
//!
//! let answer = feed::evaluate(&grammar, &templates, &value, 1_000_000, &mut output, &mut scratch);
//! match answer.finished() {
//!     Ok(text) => assert_eq!(text.of(&output), "[<ab><αβγδ>]".as_bytes()),
//!     Err(refusal) => panic!("{refusal}"),
//! }
//! ```

#![deny(unsafe_code)]
#![deny(unsafe_op_in_unsafe_fn)]
#![deny(missing_docs)]

mod answer;
#[allow(unsafe_code)]
mod calls;

pub use answer::{Answer, Finished, Refusal, Stream};
pub use calls::{block_payload, check, evaluate, pack, unescape, unpack};

/// The bytes of a block.
pub const BLOCK: usize = 512;

/// The bytes of a block's payload: 63 records of 8 bytes.
pub const PAYLOAD: usize = 504;

/// Where the payload starts in its block.
pub const PAYLOAD_START: usize = 4;

/// The number that the check of block 0 starts from; that of each other block starts from the check
/// before it.
pub const CHECK_START: u32 = 2_166_136_261;

/// The bytes of the longest stream: 128 blocks.
pub const STREAM_MOST: usize = 65_536;

/// The 16-bit numbers of scratch that [`evaluate`] needs: 24 for each of 200 depths.
pub const SCRATCH: usize = 4_800;
