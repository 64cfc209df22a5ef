//! The check call and the evaluate call: the order of the checks.

use crate::answer::{Answer, Kind, Refusal};
use crate::classes::{self, Lexemes};
use crate::grammar::Grammar;
use crate::records::{Broken, Records};
use crate::templates::Templates;
use crate::value::Value;
use crate::{blocks, limits, names, typing, walk};

/// The scratch has at least so many 16-bit numbers: 24 for each depth.
pub const SCRATCH: usize = 4_800;

/// Tries 1 to 7 on a grammar and a template set; five zeros mean accepted.
#[must_use]
pub fn check(grammar: &[u8], templates: &[u8]) -> Answer {
    match try_check(grammar, templates) {
        Ok(()) => Answer::default(),
        Err(refusal) => refusal.into(),
    }
}

fn try_check(grammar: &[u8], templates: &[u8]) -> Result<(), Refusal> {
    blocks::judge(&[(Kind::Grammar, grammar), (Kind::Templates, templates)])?;
    let (grammar, templates) = (Records::of(grammar), Records::of(templates));
    let grammar = Grammar::read(&grammar).map_err(layout_of(Kind::Grammar))?;
    let templates = Templates::read(&templates).map_err(layout_of(Kind::Templates))?;
    limits::judge_templates(&templates)?;
    judge_set(&grammar, &templates)?;
    Ok(())
}

/// Tries 1 to 9, then walks: the finished text, or as far as the walk came, is left in `out`.
///
/// For 1 to 9 `out` and `scratch` keep their bytes; otherwise all of `scratch` becomes zero.
pub fn evaluate(
    grammar: &[u8],
    templates: &[u8],
    value: &[u8],
    fuel: u32,
    out: &mut [u8],
    scratch: &mut [u16],
) -> Answer {
    match try_evaluate(grammar, templates, value, fuel, out, scratch.len()) {
        Ok(answer) => {
            scratch.fill(0);
            answer
        }
        Err(refusal) => refusal.into(),
    }
}

fn try_evaluate(
    grammar: &[u8],
    templates: &[u8],
    value: &[u8],
    fuel: u32,
    out: &mut [u8],
    scratch: usize,
) -> Result<Answer, Refusal> {
    blocks::judge(&[
        (Kind::Grammar, grammar),
        (Kind::Templates, templates),
        (Kind::Value, value),
    ])?;
    let [grammar, templates, value] = [grammar, templates, value].map(Records::of);
    let grammar = Grammar::read(&grammar).map_err(layout_of(Kind::Grammar))?;
    let templates = Templates::read(&templates).map_err(layout_of(Kind::Templates))?;
    let value = Value::read(&value).map_err(layout_of(Kind::Value))?;
    limits::judge_templates(&templates)?;
    limits::judge_value(&value)?;
    let lexemes = judge_set(&grammar, &templates)?;
    typing::judge_value(&lexemes, &templates, &value)?;
    if scratch < SCRATCH {
        return Err(Refusal::scratch());
    }
    Ok(walk::walk(&grammar, &templates, &value, fuel, out))
}

/// Refusal 3 of a stream; its place is 0.
fn layout_of(kind: Kind) -> impl Fn(Broken) -> Refusal {
    move |Broken| Refusal::at(3, kind, 0)
}

/// Refusals 5 to 7, and the classes made ready for texts.
fn judge_set(grammar: &Grammar<'_>, templates: &Templates<'_>) -> Result<Lexemes, Refusal> {
    names::judge_grammar(grammar)?;
    names::judge_templates(grammar, templates)?;
    classes::judge(grammar)?;
    let lexemes = Lexemes::of(grammar);
    typing::judge_templates(grammar, &lexemes, templates)?;
    Ok(lexemes)
}
