//! The rules in the papers' own words: document 01, and 02 for what its requests have changed.

use feed::{Refusal, Stream};

/// What is known of a refusal, beside its number, that decides which sentences it stands on.
#[derive(Clone, Copy, Debug, PartialEq, Eq)]
pub enum Why {
    /// Nothing more.
    Number,
    /// A name has to do with an escaped class.
    Escaped,
    /// A separator does not fit.
    Separator,
    /// The rule that failed has been found.
    Rule(&'static str),
}

/// The sentences that a refusal stands on.
pub fn quotes(refusal: Refusal, why: Why) -> Vec<&'static str> {
    match why {
        Why::Separator => return vec![SEPARATOR],
        Why::Escaped => return vec![ESCAPED_NAMES],
        Why::Rule(rule) => return vec![rule],
        Why::Number => {}
    }
    let mut found = vec![what_stops(refusal)];
    let more: &[_] = match refusal {
        Refusal::Block { .. } => &[CHAIN],
        Refusal::Layout {
            stream: Stream::Grammar,
        } => &[FIELDS, NUMBER],
        Refusal::Layout { .. } => &[FIELDS, SIZE],
        _ => &[],
    };
    found.extend(more);
    found
}

/// A refusal in a few words; of 7 the half that it is about.
pub fn headline(refusal: Refusal, why: Why) -> String {
    let rule = match (refusal, why) {
        (Refusal::Typing { node: 0 }, _) => refusal.rule(),
        (Refusal::Typing { .. }, Why::Rule(TYPING)) => {
            "a path names a variable or field that isn't there"
        }
        (Refusal::Typing { .. }, Why::Rule(_)) => "a typing rule fails",
        _ => refusal.rule(),
    };
    format!("{rule} (refusal {})", refusal.number())
}

/// A refusal's line in the list of what stops a run.
fn what_stops(refusal: Refusal) -> &'static str {
    match refusal {
        Refusal::Length { .. } => "A stream's length is zero, above 65,536 or no multiple of 512.",
        Refusal::Block { .. } => {
            "A block has a wrong number, kind, byte 3 or check (place: block)."
        }
        Refusal::Layout { .. } => "The records break a layout above (place 0).",
        Refusal::Limit { .. } => {
            "A template node or value is over 200 deep (body and whole value count 1), \
             or a template has over 8 parameters, or over 16 loops stand around a node."
        }
        Refusal::Name { .. } => {
            "A class, nonterminal, production, template or type named doesn't exist, \
             or a field names no earlier type."
        }
        Refusal::Class { .. } => {
            "A class has least above most, \
             or a range has lowest above highest or passes U+10FFFF."
        }
        Refusal::Typing { .. } => TYPING,
        Refusal::ValueType { .. } => "The value isn't of its declared type.",
        Refusal::ScratchTooShort => {
            "The scratch has fewer than 4,800 16-bit numbers, 24 for each depth."
        }
        Refusal::FuelSpent { .. } => {
            "A node is reached with all fuel (32 bits) used; it isn't counted as a step."
        }
        Refusal::TooDeep { .. } => "A node is reached at depth 201; it is counted as a step.",
        Refusal::OutputFull { .. } | Refusal::NoRoom => {
            "A keyword or lexeme passes the end of the output."
        }
        _ => "(The kit has no words for this refusal.)",
    }
}

const CHAIN: &str = "The check of each block now starts from the check of the block before it; \
                     block 0 still starts from 2166136261.";

const FIELDS: &str = "Unused fields are zero. Text follows its head in units of 8 bytes, \
                      the last zero-padded; length 0 has no unit. \
                      After the last thing come zero records only, fewer than 63.";

/// No record of a grammar has a size.
const SIZE: &str = "Size is the number of records of a thing, head and all below it.";

/// Only a grammar's records hold their numbers.
const NUMBER: &str =
    "A production's number becomes a word: a holds its low byte and c its high byte.";

const SEPARATOR: &str = "The separator is written before every item but the first, \
                         whether from a for, the sequence itself or several fors in a row. \
                         It comes before the item's fuel and depth are tried, and where it passes \
                         the end, none of it is written and that is 12 with the sequence's place.";

/// The line of refusal 7: the rule of paths, and of template 0.
pub const TYPING: &str = "A typing rule fails, \
                          or a path names a variable or field that isn't there \
                          (place of the node that holds the path or itself doesn't suit its \
                          position, never the one above it; 0, and tried first, \
                          if template 0 is missing or has not one parameter).";

/// What a lexeme is.
pub const LEXEME: &str =
    "A lexeme of a class is well-formed UTF-8 (RFC 3629) with a character count \
                      from least to most, each character in some range. \
                      Counts are of characters, never bytes.";

/// Which characters a lexeme may have at all.
pub const ADMITTED: &str =
    "XML 1.0 admits only U+0009, U+000A, U+000D, U+0020-U+D7FF, U+E000-U+FFFD \
                        and U+10000-U+10FFFF. A character of a lexeme must from now on be one of \
                        these as well as lie in a range of its class.";

const ESCAPED_NAMES: &str = "An escaped class naming no earlier plain class, \
                             or a text type naming an escaped class, is refused as 5.";

/// What stands for an escaped class.
pub const ESCAPED: &str = "Its lexemes are the plain lexemes with & < > \" ' turned into the five \
                       predefined entities of XML 1.0 (amp, lt, gt, quot, apos). \
                       A place there takes text of the plain class and writes the entities.";

/// What stands for a class.
pub const CLASS: &str =
    "Class: a literal that is a lexeme, or a place whose path has type text of that very class.";

/// What stands for a nonterminal.
pub const NONTERMINAL: &str = "Nonterminal: a build of one of its productions, \
                           an expand of a template with that nonterminal \
                           and argument types equal by number, \
                           or an if on yes/no with both branches in the same position.";

/// How many children and paths a node has.
pub const COUNTS: &str = "A build with another number of children, \
                      or an expand with another number of paths, breaks the typing.";

/// What stands for a repetition.
pub const REPETITION: &str = "Repetition: a sequence, whose items are nodes in the position \
                          of its nonterminal or a for over a list, whose body is one such node.";

/// When a value is of a type.
pub const VALUE: &str =
    "A value is of type text if it is a 1 whose text is a lexeme of the class; \
                     of yes/no if a 2; of a list if a 3 whose children are all of its item type; \
                     of a record if a 4 with one child for each field, in order, \
                     of that field's type.";

/// When a case is of a variant.
pub const CASE: &str = "Value record 5 is a case: a its number from 0, c size, one child; \
                    it is of the variant if there is such a case and the child is of that \
                    case's type.";

/// What a match asks for, and of its arms.
pub const MATCH: &str = "Node form 7 is match: a path, then d nodes, one for each case in order, \
                     each seeing one more variable, the case's content. \
                     A missing or extra arm fails typing.";
