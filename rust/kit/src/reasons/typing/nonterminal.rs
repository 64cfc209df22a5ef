//! What stands where a nonterminal is asked for: a build, an expand, an if or a match.

use super::{Fault, Here};
use crate::reasons::names::Binder;
use crate::reasons::nodes::{children, Form, Template};
use crate::reasons::paper::{COUNTS, NONTERMINAL};
use crate::reasons::position::Position;
use crate::reasons::types::Shape;
use crate::words::{bare, counted, listed};

impl Here<'_> {
    /// What is wrong with a node where a nonterminal is asked for.
    pub(super) fn in_nonterminal(&self, form: Form, asked: u16) -> Option<Fault> {
        match form {
            Form::Build => self.build(asked),
            Form::Expand => self.expand(asked),
            Form::If => {
                let due = ("an if asks for yes or no", NONTERMINAL);
                self.path_due(due, |shape| shape == Shape::YesNo)
            }
            Form::Match => self.matched(),
            _ => {
                let where_it_may = match form {
                    Form::For => "as an item of a sequence",
                    Form::Sequence => "where a repetition is asked for",
                    _ => "where a class is asked for",
                };
                let why = format!("{form} stands only {where_it_may}");
                let mut fault = self.misplaced(NONTERMINAL, why);
                fault.said.push(self.productions_of(asked));
                Some(fault)
            }
        }
    }

    /// The productions that may be built where a nonterminal is asked for.
    fn productions_of(&self, nonterminal: u16) -> String {
        let row = (0..).zip(&self.tables.productions);
        let own = row.filter(|(_, production)| production.nonterminal == nonterminal);
        let own: Vec<String> = own
            .map(|(number, _)| bare(&self.names.production(number)))
            .collect();
        self.row_of("production", nonterminal, &own)
    }

    /// The templates that may be expanded there.
    fn templates_of(&self, nonterminal: u16) -> String {
        let row = self.tables.templates.iter().enumerate();
        let own = row.filter(|(_, template)| template.nonterminal == nonterminal);
        let own: Vec<String> = own
            .map(|(number, _)| bare(&self.names.template(number)))
            .collect();
        self.row_of("template", nonterminal, &own)
    }

    fn row_of(&self, what: &str, nonterminal: u16, own: &[String]) -> String {
        let nonterminal = self.names.nonterminal(nonterminal);
        match own {
            [] => format!("no {what} is one of {nonterminal}"),
            [only] => format!("the {what} of {nonterminal} is {only}"),
            several => format!("the {what}s of {nonterminal} are {}", listed(several)),
        }
    }

    fn build(&self, asked: u16) -> Option<Fault> {
        let number = self.head.b();
        let production = self.tables.productions.get(usize::from(number))?;
        if production.nonterminal != asked {
            let own = self.names.nonterminal(production.nonterminal);
            let why = format!("{} is one of {own}", self.names.production(number));
            let mut fault = self.misplaced(NONTERMINAL, why);
            fault.said.push(self.productions_of(asked));
            return Some(fault);
        }
        let elements = self.tables.asking(number);
        let here = children(self.tables.records, self.site.node).count();
        (elements.len() != here).then(|| Fault {
            rule: COUNTS,
            said: self.other_count(number, &elements, here),
        })
    }

    /// A build with another number of children.
    fn other_count(&self, number: u16, elements: &[(usize, usize)], here: usize) -> Vec<String> {
        let production = self.names.production(number);
        let due = match elements.len() {
            0 => "no element but keywords".to_string(),
            1 => "1 element that is no keyword".to_string(),
            many => format!("{many} elements that are no keywords"),
        };
        let mut said = vec![format!(
            "{production} has {due}, and {}",
            standing(here, "node")
        )];
        let asked: Vec<String> = elements
            .iter()
            .filter_map(|&(_, record)| Position::of(*self.tables.grammar.get(record)?))
            .map(|position| position.called(self.names))
            .collect();
        if !asked.is_empty() {
            let verb = if asked.len() == 1 {
                "it asks"
            } else {
                "they ask in order"
            };
            said.push(format!("{verb} for {}", listed(&asked)));
        }
        said
    }

    fn expand(&self, asked: u16) -> Option<Fault> {
        let number = usize::from(self.head.b());
        let template = self.tables.templates.get(number)?;
        if template.nonterminal != asked {
            let own = self.names.nonterminal(template.nonterminal);
            let why = format!("{} is one of {own}", self.names.template(number));
            let mut fault = self.misplaced(NONTERMINAL, why);
            fault.said.push(self.templates_of(asked));
            return Some(fault);
        }
        if self.paths().len() != template.parameters.len() {
            let takes = self.takes(number, template);
            let here = standing(self.paths().len(), "path");
            return Some(Fault {
                rule: COUNTS,
                said: vec![format!("{takes}, and {here}")],
            });
        }
        let mut row = self.paths().zip(template.parameters.clone()).enumerate();
        row.find_map(|(argument, (path, parameter))| self.argument(argument, path, parameter))
    }

    /// What a template takes.
    fn takes(&self, number: usize, template: &Template) -> String {
        let parameter = |(place, binder): (usize, usize)| {
            let name = bare(&self.names.variable(place, Binder::Own(binder)));
            let type_number = usize::from(self.tables.records.get(binder)?.b());
            Some(format!("{name}: {}", self.names.type_of(type_number)))
        };
        let row = template.parameters.clone().enumerate();
        let parameters: Vec<String> = row.filter_map(parameter).collect();
        let template = self.names.template(number);
        match parameters.len() {
            0 => format!("{template} takes no path"),
            count => format!(
                "{template} takes {} ({})",
                counted(count, "path", "paths"),
                listed(&parameters)
            ),
        }
    }

    /// An argument that isn't there, or is of another type than its parameter.
    fn argument(&self, argument: usize, path: usize, parameter: usize) -> Option<Fault> {
        let found = match self.along(path) {
            Err(missing) => return Some(missing),
            Ok(found) => found,
        };
        let due = usize::from(self.tables.records.get(parameter)?.b());
        if found == due {
            return None;
        }
        let name = bare(&self.names.variable(argument, Binder::Own(parameter)));
        let template = self.names.template(usize::from(self.head.b()));
        let (found_type, due_type) = (self.names.type_of(found), self.names.type_of(due));
        let mut said = vec![format!(
            "path {} finds {found_type}, and parameter {name} of {template} is of {due_type}",
            argument + 1,
        )];
        let shape = |number| self.tables.types.shape(number);
        let has_fields = matches!(shape(due), Some(Shape::Record(_) | Shape::Variant(_)));
        if shape(found) == shape(due) && !has_fields {
            said.push(format!(
                "both are {}, but types are equal by their numbers only",
                self.what(due)
            ));
        }
        Some(Fault {
            rule: NONTERMINAL,
            said,
        })
    }
}

/// How many stand here.
pub(super) fn standing(count: usize, what: &str) -> String {
    match count {
        0 => "none stands here".to_string(),
        1 => format!("1 {what} stands here"),
        many => format!("{many} {what}s stand here"),
    }
}
