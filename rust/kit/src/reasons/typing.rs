//! Which typing rule fails at a node of the templates, what its position asks for, and what stands there.
//!
//! The verdict and the place are the proved library's. Here the rule is looked for that a person has to
//! keep at that place, by the same rules in the same order: a node's position first, then its counts, then
//! its paths.

mod arms;
mod class;
mod nonterminal;
mod paths;
#[cfg(test)]
mod tests;

use crate::reasons::names::Names;
use crate::reasons::nodes::Form;
use crate::reasons::paper::{REPETITION, TYPING};
use crate::reasons::position::{site, Position, Site};
use crate::reasons::tables::Tables;
use crate::reasons::types::Shape;
use crate::streams::record::Record;
use crate::words::counted;

/// A typing rule that fails at a node: the sentence of the paper, and what to say of it.
#[derive(Clone, Debug, PartialEq, Eq)]
pub struct Fault {
    /// The sentence.
    pub rule: &'static str,
    /// What to say, a line for each part of it.
    pub said: Vec<String>,
}

/// What fails at a node of the templates that the library refuses by 7; node 0 stands for template 0,
/// since a node never is the first record.
///
/// The layout is sound here, limits are kept, and what is named exists.
pub fn fault(
    grammar: &[Record],
    templates: &[Record],
    names: &Names,
    node: usize,
) -> Option<Fault> {
    let tables = Tables::of(grammar, templates);
    if node == 0 {
        return root(&tables, names);
    }
    let here = Here {
        tables: &tables,
        names,
        site: site(&tables, node)?,
        head: *templates.get(node)?,
    };
    here.judged()
}

/// Template 0, which is missing or has not one parameter.
fn root(tables: &Tables<'_>, names: &Names) -> Option<Fault> {
    let found = match tables.templates.first() {
        None => "there is no template".to_string(),
        Some(root) if root.parameters.len() == 1 => return None,
        Some(root) => {
            let parameters = counted(root.parameters.len(), "parameter", "parameters");
            format!("{} has {parameters}", names.template(0))
        }
    };
    let said =
        format!("{found}: the first template is the root, and its one parameter is the value");
    Some(Fault {
        rule: TYPING,
        said: vec![said],
    })
}

/// A node that is judged, where it stands.
struct Here<'a> {
    tables: &'a Tables<'a>,
    names: &'a Names,
    site: Site,
    head: Record,
}

impl Here<'_> {
    fn judged(&self) -> Option<Fault> {
        let form = Form::of(self.head)?;
        match self.site.position {
            Position::Class(class) => self.in_class(form, class),
            Position::Repetition(_) if form == Form::Sequence => None,
            Position::Repetition(_) => {
                let why =
                    format!("only a sequence stands for a repetition, and {form} stands here");
                Some(self.misplaced(REPETITION, why))
            }
            Position::Item(_) if form == Form::For => self.looped(),
            Position::Nonterminal(number) | Position::Item(number) => {
                self.in_nonterminal(form, number)
            }
        }
    }

    /// A for among the items of a sequence: only its path may be wrong.
    fn looped(&self) -> Option<Fault> {
        let due = ("a for goes over a list", REPETITION);
        self.path_due(due, |shape| matches!(shape, Shape::List(_)))
    }

    /// What the position asks for, and who asks.
    fn asked(&self) -> String {
        format!(
            "{} is asked for here, {}",
            self.site.position.called(self.names),
            self.site.asker.called(self.names)
        )
    }

    /// A node that can't stand in its position.
    fn misplaced(&self, rule: &'static str, why: String) -> Fault {
        Fault {
            rule,
            said: vec![self.asked(), why],
        }
    }
}
