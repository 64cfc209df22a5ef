//! Builds the three streams of the page machine: a grammar, a template set and a value.
//!
//! The builders keep the layout (kinds, sizes, texts in units, blocks with their checks); they do
//! not judge what they are given. A set that is refused for its names, classes, typing or limits
//! can therefore be built as easily as one that is accepted. For streams with a broken layout take
//! the records, change them and pack them with [`blocks`].
//!
//! The example of the paper:
//!
//! ```
//! use build::{Element, Grammar, Node, Path, Templates, Value};
//!
//! let mut grammar = Grammar::new();
//! let word = grammar.class(1, 4, &[(0x61, 0x7A), (0x370, 0x3FF)]);
//! let row = grammar.production(
//!     0,
//!     [Element::keyword("["), Element::Repetition(1), Element::keyword("]")],
//! );
//! let entry = grammar.production(
//!     1,
//!     [Element::keyword("<"), Element::Class(word), Element::keyword(">")],
//! );
//!
//! let mut templates = Templates::new();
//! let title = templates.text(word);
//! let titles = templates.list(title);
//! let body = Node::build(entry, [Node::place(Path::variable(1))]);
//! let entries = Node::sequence([Node::each(Path::variable(0), body)]);
//! templates.template(0, [titles], Node::build(row, [entries]));
//!
//! let value = Value::list([Value::text("ab"), Value::text("αβγδ")]);
//! assert_eq!(grammar.stream().len(), 512);
//! assert_eq!(templates.records().len(), 11);
//! assert_eq!(value.stream()[2], 3);
//! ```

mod blocks;
pub mod borders;
mod escapes;
mod grammar;
mod records;
mod templates;
mod value;

pub use blocks::{
    blocks, check_of, due_check, due_start, fnv1a, fnv1a_from, mend, mend_each, mend_from, payload,
    set_check, start_of, with_check, BLOCK, CHECK_START, PAYLOAD,
};
pub use escapes::escaped;
pub use grammar::{Class, Element, Grammar, PlainClass, Production};
pub use records::{record, records_of, text_units, Record};
pub use templates::{Node, Path, Template, Templates, Type};
pub use value::Value;

/// The kind of a grammar stream.
pub const GRAMMAR: u8 = 1;
/// The kind of a templates stream.
pub const TEMPLATES: u8 = 2;
/// The kind of a value stream.
pub const VALUE: u8 = 3;
