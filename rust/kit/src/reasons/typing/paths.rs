//! What the paths of a node find, and what isn't there.

use super::{Fault, Here};
use crate::reasons::context::WIDEST;
use crate::reasons::nodes::{paths, steps, Form};
use crate::reasons::paper::TYPING;
use crate::reasons::types::Shape;
use crate::words::{bare, counted, listed, shown};
use std::ops::Range;

impl Here<'_> {
    /// The records of the node's paths.
    pub(super) fn paths(&self) -> Range<usize> {
        paths(self.tables.records, self.site.node)
    }

    /// A path that must find a type of some shape, for what the node does and by which rule.
    pub(super) fn path_due(
        &self,
        (due, rule): (&str, &'static str),
        fits: impl Fn(Shape) -> bool,
    ) -> Option<Fault> {
        let path = self.paths().next()?;
        let found = match self.along(path) {
            Err(missing) => return Some(missing),
            Ok(found) => found,
        };
        let shape = self.tables.types.shape(found)?;
        let what = format!("{} finds {}", self.path_called(path), self.found(found));
        (!fits(shape)).then(|| Fault {
            rule,
            said: vec![format!("{due}, and {what}")],
        })
    }

    /// The number of the type that a path finds, or what isn't there.
    pub(super) fn along(&self, path: usize) -> Result<usize, Fault> {
        self.type_along(path).map_err(|missing| Fault {
            rule: TYPING,
            said: vec![format!("{}{missing}", self.which(path))],
        })
    }

    /// Which of an expand's paths it is, where there are several.
    fn which(&self, path: usize) -> String {
        let several = Form::of(self.head) == Some(Form::Expand) && self.paths().len() > 1;
        match path.checked_sub(self.site.node).filter(|_| several) {
            Some(number) => format!("path {number}: "),
            None => String::new(),
        }
    }

    fn type_along(&self, path: usize) -> Result<usize, String> {
        let Some(record) = self.tables.records.get(path) else {
            return Err("the path isn't there".to_string());
        };
        let (variable, fields) = steps(record);
        let known = self.site.scope.get(variable);
        let Some(start) = known.and_then(|known| known.type_number) else {
            return Err(self.no_variable(variable));
        };
        fields.iter().try_fold(start, |number, &field| {
            let field = usize::from(field);
            let next = self.tables.types.field(number, field);
            next.ok_or_else(|| self.no_field(number, field))
        })
    }

    fn no_variable(&self, number: usize) -> String {
        let row = self.site.scope.iter().enumerate();
        let known: Vec<String> = row
            .map(|(number, variable)| bare(&self.names.variable(number, variable.binder)))
            .collect();
        match known.as_slice() {
            [] => format!("variable {number} isn't there: no variable is known here"),
            [only] => format!("variable {number} isn't there: 1 variable is known here: {only}"),
            several => format!(
                "variable {number} isn't there: {} variables are known here: {}",
                several.len(),
                listed(several)
            ),
        }
    }

    fn no_field(&self, number: usize, field: usize) -> String {
        let own = self.names.type_of(number);
        let kind = match self.tables.types.shape(number) {
            Some(Shape::Record(0)) => return format!("{own} has no field {field}: it has none"),
            Some(Shape::Record(fields)) => {
                let row = (0..fields).map(|field| bare(&self.names.field(number, field)));
                let row: Vec<String> = row.collect();
                return format!("{own} has no field {field}: it has {}", listed(&row));
            }
            Some(Shape::Text(_)) => "text",
            Some(Shape::YesNo) => "yes/no",
            Some(Shape::List(_)) => "list",
            Some(Shape::Variant(_)) => "variant",
            None => return format!("{own} isn't there"),
        };
        format!("the path goes on behind {own}: a {kind} has no fields")
    }

    /// A path as it is written in the description, or by its numbers.
    pub(super) fn path_called(&self, path: usize) -> String {
        if let Some(written) = self.names.paths.get(&path) {
            return format!("the path {}", shown(written, WIDEST));
        }
        let Some(record) = self.tables.records.get(path) else {
            return "the path".to_string();
        };
        let (variable, fields) = steps(record);
        let known = self.site.scope.get(variable);
        let name = known.and_then(|known| self.names.variable_name(known.binder));
        let mut number = known.and_then(|known| known.type_number);
        let mut words = vec![name.map_or_else(|| format!("variable {variable}"), String::clone)];
        for field in fields.iter().map(|&field| usize::from(field)) {
            let called = number.map(|number| self.names.field(number, field));
            let called = called.unwrap_or_else(|| format!("field {field}"));
            words.push(match name {
                Some(_) => bare(&called).trim_matches('`').to_string(),
                None => called,
            });
            number = number.and_then(|number| self.tables.types.field(number, field));
        }
        match name {
            Some(_) => format!("the path {}", shown(&words.join("."), WIDEST)),
            None => format!("the path ({})", words.join(", ")),
        }
    }

    /// What a path finds that has a type.
    pub(super) fn found(&self, number: usize) -> String {
        match self.tables.types.shape(number) {
            Some(Shape::Text(class)) => format!("a text of {}", self.names.class(class)),
            Some(Shape::YesNo) => format!("yes or no ({})", self.names.type_of(number)),
            Some(Shape::List(_)) => format!("a list ({})", self.names.type_of(number)),
            Some(Shape::Variant(_)) => format!("a variant ({})", self.names.type_of(number)),
            _ => format!("a record ({})", self.names.type_of(number)),
        }
    }

    /// What things of a type are.
    pub(super) fn what(&self, number: usize) -> String {
        match self.tables.types.shape(number) {
            Some(Shape::Text(class)) => format!("texts of {}", self.names.class(class)),
            Some(Shape::YesNo) => "yes or no".to_string(),
            Some(Shape::List(item)) => format!("lists of {}", self.names.type_of(item)),
            Some(Shape::Record(fields)) => {
                format!("records of {}", counted(fields, "field", "fields"))
            }
            Some(Shape::Variant(cases)) => {
                format!("variants of {}", counted(cases, "case", "cases"))
            }
            None => "unknown".to_string(),
        }
    }
}
