//! Which limit a node, a template or a value is over (refusal 4), for a person who wants to mend it.
//!
//! Layouts are sound here, and nothing that is named has been looked up yet.

use crate::reasons::names::Names;
use crate::reasons::nodes::{down_to, row, Form};
use crate::reasons::types::Types;
use crate::reasons::values;
use crate::streams::record::Record;
use crate::words::counted;
use feed::Stream;

/// The most levels of nodes or values.
pub const LEVELS: usize = 200;

/// The most parameters of a template.
const PARAMETERS: usize = 8;

/// The most loops around a node, which are fors and arms of matches.
const LOOPS: usize = 16;

/// Which limit is passed at a record.
pub fn limits(
    stream: Stream,
    templates: &[Record],
    value: &[Record],
    names: &Names,
    record: usize,
) -> Vec<String> {
    let said = match stream {
        Stream::Value => value_over(value, record),
        _ => template_over(templates, names, record),
    };
    said.unwrap_or_default()
}

fn value_over(value: &[Record], record: usize) -> Option<Vec<String>> {
    let depth = values::down_to(value, record)?.len() + 1;
    Some(vec![deep("value", depth)]).filter(|_| depth > LEVELS)
}

fn deep(what: &str, depth: usize) -> String {
    let first = if what == "node" {
        "body"
    } else {
        "whole value"
    };
    format!(
        "this {what} is at depth {depth}, and {LEVELS} is the most: \
         a {first} is at depth 1, and what stands in it one deeper each time"
    )
}

fn template_over(templates: &[Record], names: &Names, record: usize) -> Option<Vec<String>> {
    let row = row(templates, Types::of(templates).end);
    let holds = |&number: &usize| (row[number].head..row[number].end).contains(&record);
    let number = (0..row.len()).find(holds)?;
    let template = &row[number];
    if template.head == record {
        let count = template.parameters.len();
        let parameters = counted(count, "parameter", "parameters");
        let own = names.template(number);
        return Some(vec![format!(
            "{own} has {parameters}, and {PARAMETERS} are the most"
        )])
        .filter(|_| count > PARAMETERS);
    }
    let way = down_to(templates, template.body, record)?;
    let around = |form: Form| {
        let is_form =
            |&&node: &&usize| templates.get(node).copied().and_then(Form::of) == Some(form);
        way[..way.len() - 1].iter().filter(is_form).count()
    };
    let (fors, arms) = (around(Form::For), around(Form::Match));
    let mut said = Vec::new();
    if way.len() > LEVELS {
        said.push(deep("node", way.len()));
    }
    if fors + arms > LOOPS {
        let loops = loops(fors, arms);
        said.push(format!(
            "{loops} stand around this node, and {LOOPS} are the most"
        ));
    }
    Some(said)
}

/// The loops around a node, by what they are.
fn loops(fors: usize, arms: usize) -> String {
    match (fors, arms) {
        (fors, 0) => format!("{fors} fors"),
        (0, arms) => format!("{arms} arms of matches"),
        (fors, arms) => format!(
            "{} loops ({} and {})",
            fors + arms,
            counted(fors, "for", "fors"),
            counted(arms, "arm of a match", "arms of matches")
        ),
    }
}

#[cfg(test)]
mod tests {
    use crate::reasons::explain::{explained_by_name, explained_with, remarks_of, words};
    use crate::reasons::names::Names;

    const SMALL: &str = r#"class c 1 to 4 { 'a'-'z' } production p of n = n* type t = list t
        template a (x: t) of n = NODE value VALUE"#;

    /// What `explain` adds for a body and a value.
    fn said(node: &str, value: &str) -> Vec<String> {
        let description = SMALL.replacen("VALUE", value, 1);
        remarks_of(&explained_with(&description, "NODE", node), 4)
    }

    /// A node in so many sequences of builds.
    fn nested(pairs: usize, inner: &str) -> String {
        let (open, close) = ("build p (sequence (".repeat(pairs), "))".repeat(pairs));
        format!("{open}{inner}{close}")
    }

    #[test]
    fn a_node_that_stands_too_deep() {
        assert_eq!(
            said(&nested(100, "build p"), "[]"),
            ["this node is at depth 201, and 200 is the most: \
              a body is at depth 1, and what stands in it one deeper each time"]
        );
    }

    #[test]
    fn a_value_that_stands_too_deep() {
        let value = format!("{}{}", "[".repeat(201), "]".repeat(201));
        assert_eq!(
            said("build p (sequence ())", &value),
            ["this value is at depth 201, and 200 is the most: \
              a whole value is at depth 1, and what stands in it one deeper each time"]
        );
    }

    #[test]
    fn too_many_loops() {
        let loops = "build p (sequence (for y in x do ".repeat(17);
        let node = format!("{loops}build p{}", "))".repeat(17));
        assert_eq!(
            said(&node, "[]"),
            ["17 fors stand around this node, and 16 are the most"]
        );
    }

    #[test]
    fn too_many_parameters() {
        let more =
            "value [] template more (a: t b: t c: t d: t e: t f: t g: t h: t i: t) of n = build p";
        let names = Names {
            templates: words("main more"),
            ..Names::default()
        };
        let description = SMALL.replacen("NODE", "build p", 1);
        let text = explained_by_name(&description, "value VALUE", more, &names);
        assert_eq!(
            remarks_of(&text, 4),
            ["template `more` has 9 parameters, and 8 are the most"]
        );
    }
}
