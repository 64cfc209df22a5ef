//! Refusal 4: over 200 deep, over 8 parameters, over 16 loops, arms among them.

use crate::answer::{Kind, Refusal};
use crate::templates::{Form, Templates};
use crate::value::Value;

pub(crate) const DEPTH: usize = 200;
const PARAMETERS: usize = 8;
const LOOPS: usize = 16;

/// The first head of a template set that is over a limit.
pub(crate) fn judge_templates(set: &Templates<'_>) -> Result<(), Refusal> {
    for template in &set.templates {
        if template.parameters.len() > PARAMETERS {
            return Err(Refusal::at(4, Kind::Templates, template.place));
        }
        // The loops and arms around the node, each by the index behind it: all that is below a match
        // is within one of its arms.
        let mut loops: Vec<usize> = Vec::new();
        for (index, node) in (template.body..).zip(set.nodes_of(template)) {
            while loops.pop_if(|end| *end <= index).is_some() {}
            if node.depth > DEPTH || loops.len() > LOOPS {
                return Err(Refusal::at(4, Kind::Templates, node.place));
            }
            if let Form::For(_) | Form::Match(_) = node.form {
                loops.push(node.next);
            }
        }
    }
    Ok(())
}

/// The first value that is over 200 deep.
pub(crate) fn judge_value(value: &Value<'_>) -> Result<(), Refusal> {
    match value.items.iter().find(|item| item.depth > DEPTH) {
        Some(item) => Err(Refusal::at(4, Kind::Value, item.place)),
        None => Ok(()),
    }
}
