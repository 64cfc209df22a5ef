//! The records of types, their fields and cases, and parameters.

use super::Assembler;
use crate::assembly::sheet::{word, Sheet, What};
use crate::language::description::{Field, Type, TypeForm};
use crate::language::rows::{numbered, row};
use crate::streams::record::{Record, CASES, STREAM_RECORDS};

impl Assembler<'_> {
    pub(super) fn type_records(&mut self, declared: &Type, sheet: &mut Sheet) {
        let (rows, mistakes) = (&self.rows, &mut self.mistakes);
        let head = match &declared.form {
            TypeForm::Text(class) => {
                let class = numbered(&rows.classes, class, "class", mistakes);
                Record::new(1, 0, [class, 0, 0])
            }
            TypeForm::YesNo => Record::new(1, 1, [0; 3]),
            TypeForm::List(of) => {
                let of = numbered(&rows.types, of, "type", mistakes);
                Record::new(1, 2, [of, 0, 0])
            }
            TypeForm::Record(fields) => Record::new(1, 3, [0, 0, word(fields.len())]),
            TypeForm::Variant(cases) => Record::new(1, 4, [0, 0, word(cases.len())]),
        };
        sheet.push_named(head, declared.name.at, What::Type, &declared.name.word);
        match &declared.form {
            TypeForm::Record(fields) => self.typed(fields, 2, What::Field, sheet),
            TypeForm::Variant(cases) => {
                if cases.is_empty() {
                    self.mistake(declared.name.at, "a variant has at least one case");
                }
                self.typed(cases, 2, What::Case, sheet);
            }
            TypeForm::Text(_) | TypeForm::YesNo | TypeForm::List(_) => {}
        }
    }

    /// The records of fields, of cases or of parameters, whose names must differ.
    pub(super) fn typed(&mut self, fields: &[Field], kind: u8, what: What, sheet: &mut Sheet) {
        let names = fields.iter().map(|field| &field.name);
        let most = match what {
            What::Case => CASES,
            _ => STREAM_RECORDS,
        };
        row(names, &format!("a {what}"), most, &mut self.mistakes);
        for field in fields {
            let of = numbered(&self.rows.types, &field.of, "type", &mut self.mistakes);
            let record = Record::new(kind, 0, [of, 0, 0]);
            sheet.push_named(record, field.name.at, what, &field.name.word);
        }
    }
}
