//! The page machine in plain Rust, written from document 01 and the requests of 02 that have landed
//! (a: separators; b: checks that start from the block before; c: escaped classes; d: XML's
//! characters; f: production numbers of two bytes; g: variants and matches), and from nothing else.
//!
//! A grammar, a template set and a value go in as streams of 512-byte blocks; a text that the
//! grammar derives, or one numbered refusal, comes out. This crate exists to be compared with the
//! proved library: it uses heap and tables as an ordinary Rust program would, and shares no code
//! with it. Its modules follow the sections of the paper:
//!
//! | module | section |
//! |---|---|
//! | `blocks` | Blocks; refusals 1 and 2; packing and unpacking |
//! | `records` | Records: the fields, texts, sizes and the tail |
//! | `grammar`, `templates`, `value` | the three streams' layouts; refusal 3 |
//! | `limits` | refusal 4 |
//! | `names` | refusal 5 |
//! | `classes` | refusal 6, and lexemes |
//! | `escape` | 02 c: the five entities; the unescape call |
//! | `typing` | Typing; refusals 7 and 8 |
//! | `walk` | Walk; refusals 10 to 12 |
//! | `calls` | What stops a run: the order of the checks |
//!
//! ```
//! let mut out = [0u8; 16];
//! let mut scratch = [0u16; 4800];
//! let answer = reference::evaluate(&[], &[], &[], 1_000_000, &mut out, &mut scratch);
//! assert_eq!(answer.to_string(), "1 1 0 0 0");
//! ```

mod answer;
mod blocks;
mod calls;
mod classes;
mod escape;
mod grammar;
mod limits;
mod names;
mod records;
mod templates;
mod typing;
mod value;
mod walk;

pub use answer::Answer;
pub use blocks::{block_payload, fnv1a, fnv1a_from, pack, unpack, START};
pub use calls::{check, evaluate, SCRATCH};
pub use escape::unescape;
