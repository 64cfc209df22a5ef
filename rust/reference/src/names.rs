//! Refusal 5: what is named must exist; a field or case names an earlier type, an escaped class an
//! earlier plain class, and a text type a plain class.

use crate::answer::{Kind, Refusal};
use crate::grammar::{Class, Grammar, Symbol};
use crate::templates::{Form, Shape, Template, Templates};

/// The first escaped class of a grammar that names no earlier plain class, or else the first element
/// that names nothing.
pub(crate) fn judge_grammar(grammar: &Grammar<'_>) -> Result<(), Refusal> {
    for (number, class) in grammar.classes.iter().enumerate() {
        if let Class::Escaped(escaped) = class {
            let earlier = usize::from(escaped.plain) < number;
            if !(earlier && grammar.has_plain_class(escaped.plain)) {
                return Err(Refusal::at(5, Kind::Grammar, escaped.place));
            }
        }
    }
    for element in grammar.productions.iter().flat_map(|p| &p.elements) {
        let exists = match element.symbol {
            Symbol::Keyword(_) => true,
            Symbol::Class(class) => usize::from(class) < grammar.classes.len(),
            Symbol::Nonterminal(n) | Symbol::Repetition(n, _) => grammar.has_nonterminal(n),
        };
        if !exists {
            return Err(Refusal::at(5, Kind::Grammar, element.place));
        }
    }
    Ok(())
}

/// The first record of a template set that names nothing.
pub(crate) fn judge_templates(grammar: &Grammar<'_>, set: &Templates<'_>) -> Result<(), Refusal> {
    judge_types(grammar, set)?;
    for template in &set.templates {
        judge_template(grammar, set, template)?;
    }
    Ok(())
}

fn judge_types(grammar: &Grammar<'_>, set: &Templates<'_>) -> Result<(), Refusal> {
    for (number, kind) in set.types.iter().enumerate() {
        match &kind.shape {
            Shape::Text(class) => ask(grammar.has_plain_class(*class), kind.place)?,
            Shape::YesNo => {}
            Shape::List(item) => named(*item, set.types.len(), kind.place)?,
            Shape::Record(earlier) | Shape::Variant(earlier) => {
                for name in earlier {
                    named(name.number, number, name.place)?;
                }
            }
        }
    }
    Ok(())
}

fn judge_template(
    grammar: &Grammar<'_>,
    set: &Templates<'_>,
    template: &Template,
) -> Result<(), Refusal> {
    if !grammar.has_nonterminal(template.nonterminal) {
        return Err(Refusal::at(5, Kind::Templates, template.place));
    }
    for parameter in &template.parameters {
        named(parameter.number, set.types.len(), parameter.place)?;
    }
    for node in set.nodes_of(template) {
        match node.form {
            Form::Build { production } => named(production, grammar.productions.len(), node.place)?,
            Form::Expand { template, .. } => named(template, set.templates.len(), node.place)?,
            _ => {}
        }
    }
    Ok(())
}

/// A number of the templates stream names one of so many.
fn named(number: u16, count: usize, place: usize) -> Result<(), Refusal> {
    ask(usize::from(number) < count, place)
}

/// `Ok` if a record of the templates stream names what it may.
fn ask(holds: bool, place: usize) -> Result<(), Refusal> {
    let refusal = Refusal::at(5, Kind::Templates, place);
    holds.then_some(()).ok_or(refusal)
}
