//! Cases of refusals 1 to 3: lengths, blocks, layout.

use crate::case::Case;
use crate::example::{
    example, grammar, in_grammar, in_templates, in_value, of_value, templates, value,
};
use crate::records::{altered, cut, damaged, Records};
use build::{record, text_units, Record, Value, GRAMMAR, TEMPLATES, VALUE};

/// All of them.
#[must_use]
pub fn all() -> Vec<Case> {
    [
        lengths(),
        blocks(),
        grammar_layout(),
        templates_layout(),
        value_layout(),
        order(),
    ]
    .concat()
}

/// The example's blocks.
fn g() -> Vec<u8> {
    grammar().packed(GRAMMAR)
}

fn t() -> Vec<u8> {
    templates().packed(TEMPLATES)
}

fn v() -> Vec<u8> {
    value().packed(VALUE)
}

/// The example with other blocks as one of its streams.
fn of_g(label: &str, blocks: Vec<u8>) -> Case {
    example().grammar(blocks).case(label)
}

fn of_t(label: &str, blocks: Vec<u8>) -> Case {
    example().templates(blocks).case(label)
}

fn of_v(label: &str, blocks: Vec<u8>) -> Case {
    example().value(blocks).case(label)
}

fn lengths() -> Vec<Case> {
    vec![
        of_g("1 no grammar", vec![]),
        of_t("1 no templates", vec![]),
        of_v("1 no value", vec![]),
        of_g("1 grammar of 511 bytes", cut(g(), 511)),
        of_t("1 templates of 513 bytes", cut(t(), 513)),
        of_v("1 value of 129 blocks", vec![0; 129 * 512]),
    ]
}

fn blocks() -> Vec<Case> {
    let two = value().zeros(59).packed(VALUE);
    vec![
        of_g("2 grammar with a damaged check", damaged(g(), 511)),
        of_t("2 templates with block 1 first", altered(t(), 0, 1)),
        of_t("2 templates with block 256 first", altered(t(), 1, 1)),
        of_v("2 value of kind 2", value().packed(TEMPLATES)),
        of_v("2 value with byte 3", altered(v(), 3, 1)),
        of_v("2 value with a damaged block 1", damaged(two, 600)),
    ]
}

fn grammar_layout() -> Vec<Case> {
    let odd_range = [2, 97, 0, 0, 122, 0, 0, 1];
    let long_keyword = text_units(b"[[")[0];
    vec![
        in_grammar("3 class 1 first", 0, record(1, 1, 1, 4, 2)),
        in_grammar("3 class with a range too few", 0, record(1, 0, 1, 4, 3)),
        in_grammar("3 range with byte 7", 1, odd_range),
        in_grammar("3 production with c", 3, record(3, 0, 0, 1, 3)),
        in_grammar("3 element of form 5", 6, record(4, 5, 1, 0, 0)),
        in_grammar("3 repetition with c", 6, record(4, 3, 1, 1, 0)),
        in_grammar("3 keyword with a byte after it", 5, long_keyword),
    ]
}

fn templates_layout() -> Vec<Case> {
    let six_steps = [6, 1, 6, 0, 0, 0, 0, 0];
    let more_than_steps = [6, 1, 0, 1, 0, 0, 0, 0];
    vec![
        in_templates("3 type of form 5", 1, record(1, 5, 0, 0, 0)),
        in_templates("3 template of another size", 2, record(3, 1, 0, 8, 0)),
        in_templates("3 node of form 8", 9, record(5, 8, 0, 2, 0)),
        in_templates("3 place of another size", 9, record(5, 2, 0, 3, 0)),
        in_templates("3 place with d", 9, record(5, 2, 0, 2, 1)),
        in_templates("3 path of six steps", 10, six_steps),
        in_templates("3 path with more than its steps", 10, more_than_steps),
    ]
}

/// A text of zeros is a text: its units are no tail. 62 zero records may follow the value, and then
/// it is its type that is refused.
fn value_layout() -> Vec<Case> {
    let one = |record: Record| Records::from(vec![record]);
    let text = |units: usize| Records::from(Value::text(vec![0; 8 * units]).records());
    let two = value().then(record(2, 1, 0, 0, 0));
    vec![
        of_value("3 zero records only", &one([0; 8])),
        of_value("3 yes/no of 2", &one(record(2, 2, 0, 0, 0))),
        in_value("3 title of another size", 1, record(1, 0, 2, 3, 0)),
        of_value("3 two values", &two),
        of_value("3 63 zero records after the value", &text(62).zeros(63)),
        of_value("8 62 zero records after the value", &text(63)),
    ]
}

/// What is tried first is answered first, each number over grammar, templates, value before the
/// next.
fn order() -> Vec<Case> {
    let layout = grammar().with(3, record(3, 0, 0, 1, 3)).packed(GRAMMAR);
    vec![
        example()
            .grammar(damaged(g(), 4))
            .value(vec![])
            .case("1 no value, and a damaged grammar"),
        example()
            .templates(damaged(t(), 4))
            .value(damaged(v(), 4))
            .case("2 damaged templates and value"),
        example()
            .grammar(layout)
            .value(damaged(v(), 4))
            .case("2 damaged value, and the grammar's layout"),
    ]
}
