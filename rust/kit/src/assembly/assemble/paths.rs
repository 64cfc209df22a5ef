//! Paths: variables and fields by their numbers.

use super::Assembler;
use crate::assembly::sheet::{Sheet, What};
use crate::language::description::{By, Path, Step, TypeForm};
use crate::language::rows::meant;
use crate::streams::record::{Record, STREAM_RECORDS};
use crate::words::{listed, named};

/// The number of a type, if it is known.
pub(super) type Known = Option<u16>;

/// The variables that a path may name, from outside in, with their types.
#[derive(Default)]
pub(super) struct Scope {
    pub(super) variables: Vec<(String, Known)>,
}

/// The most fields of a path.
const MOST_FIELDS: usize = 5;

impl Assembler<'_> {
    /// Adds a path's record, and gives the type that it finds, if that is known.
    pub(super) fn path(&mut self, path: &Path, scope: &Scope, sheet: &mut Sheet) -> Known {
        // Past what a stream holds nothing is looked up any more: of very many names that takes long.
        if sheet.records.len() > STREAM_RECORDS {
            sheet.push(Record::new(6, 0, [0; 3]), path.variable.at);
            return None;
        }
        let (variable, mut known) = self.variable(&path.variable, scope);
        let steps = path.fields.len();
        if let Some(sixth) = path.fields.get(MOST_FIELDS) {
            let message = format!("a path has up to 5 fields, and this is one of {steps}");
            self.mistake(sixth.at, message);
        }
        let count = steps.min(MOST_FIELDS) as u8;
        let mut bytes = [6, variable, count, 0, 0, 0, 0, 0];
        for (byte, field) in bytes[3..].iter_mut().zip(&path.fields) {
            (*byte, known) = self.field(field, known);
        }
        let at = path.variable.at;
        sheet.push_named(Record(bytes), at, What::Path, &path.written());
        known
    }

    /// A variable's number, and its type if that is known. Of equal names the innermost is meant.
    fn variable(&mut self, step: &Step, scope: &Scope) -> (u8, Known) {
        let variables = &scope.variables;
        let number = match &step.by {
            By::Number(number) => usize::from(*number),
            By::Name(word) => match variables.iter().rposition(|(name, _)| name == word) {
                Some(number) => number,
                None => {
                    let near = known(word, variables, self.mistakes.len());
                    let message = format!("no variable is named {} here{near}", named(word));
                    self.mistake(step.at, message);
                    return (0, None);
                }
            },
        };
        let known = variables.get(number).and_then(|(_, known)| *known);
        (self.byte(number, step, "variables"), known)
    }

    /// A field's number, and its type if that is known.
    fn field(&mut self, step: &Step, known: Known) -> (u8, Known) {
        let fields = match self.rows.form(known) {
            Some(TypeForm::Record(fields)) => fields.as_slice(),
            _ => &[],
        };
        let number = match &step.by {
            By::Number(number) => usize::from(*number),
            By::Name(word) => match fields.iter().position(|field| field.name.word == *word) {
                Some(number) => number,
                None => {
                    let near = meant(
                        word,
                        fields.iter().map(|field| field.name.word.as_str()),
                        self.mistakes.len(),
                    );
                    self.no_field(word, step, known, &near);
                    return (0, None);
                }
            },
        };
        let of = fields
            .get(number)
            .and_then(|field| self.rows.type_named(&field.of));
        (self.byte(number, step, "fields"), of)
    }

    fn byte(&mut self, number: usize, step: &Step, what: &str) -> u8 {
        u8::try_from(number).unwrap_or_else(|_| {
            self.mistake(step.at, format!("a path reaches the {what} 0 to 255"));
            0
        })
    }

    /// The mistake of a field that isn't there, unless what stands before it has a mistake already.
    fn no_field(&mut self, word: &str, step: &Step, known: Known, near: &str) {
        let word = named(word);
        let holder = known.and_then(|number| self.rows.forms.get(usize::from(number)));
        match holder {
            Some((name, TypeForm::Record(_))) => {
                let holder = named(name);
                self.mistake(
                    step.at,
                    format!("the type {holder} has no field {word}{near}"),
                );
            }
            Some((name, form)) => {
                let holder = named(name);
                let hint = match form {
                    TypeForm::Variant(_) => ": a `match` leads to what its cases hold",
                    _ => "",
                };
                let message =
                    format!("the type {holder} is no record, and has no field {word}{hint}");
                self.mistake(step.at, message);
            }
            None if self.mistakes.is_empty() => self.mistake(
                step.at,
                format!(
                    "what stands before {word} has no known type: name the field by its number"
                ),
            ),
            None => {}
        }
    }
}

/// The variable that may be meant by a misspelt one, or else those that are known.
fn known(word: &str, variables: &[(String, Known)], before: usize) -> String {
    let near = meant(
        word,
        variables.iter().map(|(name, _)| name.as_str()),
        before,
    );
    match (near.is_empty(), variables) {
        (false, _) => near,
        (true, []) => ": none is known".to_string(),
        (true, _) => {
            let names: Vec<String> = variables.iter().map(|(name, _)| named(name)).collect();
            format!(": known are {}", listed(&names))
        }
    }
}
