//! The records of the value that a description has.

use super::paths::Known;
use super::Assembler;
use crate::assembly::sheet::{word, Sheet};
use crate::language::description::{Field, Name, Step, TypeForm, Value, ValueForm};
use crate::streams::record::Record;
use crate::words::named;

impl Assembler<'_> {
    pub(super) fn value(&mut self, value: &Value, declared: Known) -> Sheet {
        let mut sheet = Sheet::default();
        self.value_records(value, declared, &mut sheet);
        sheet
    }

    fn value_records(&mut self, value: &Value, known: Known, sheet: &mut Sheet) {
        let at = value.at;
        match &value.form {
            ValueForm::YesNo(yes) => {
                sheet.push(Record::new(2, u8::from(*yes), [0; 3]), at);
            }
            ValueForm::Text(text) => {
                let length = self.text_length(text);
                let head = sheet.push(Record::new(1, 0, [length, 0, 0]), at);
                sheet.push_text(&text.bytes, text.at);
                sheet.close(head);
            }
            ValueForm::List(items) => {
                let of = match self.rows.form(known) {
                    Some(TypeForm::List(of)) => self.rows.type_named(of),
                    _ => None,
                };
                let head = sheet.push(Record::new(3, 0, [0, 0, word(items.len())]), at);
                for item in items {
                    self.value_records(item, of, sheet);
                }
                sheet.close(head);
            }
            ValueForm::Record(children) => {
                let head = sheet.push(Record::new(4, 0, [0, 0, word(children.len())]), at);
                self.children(children, known, sheet);
                sheet.close(head);
            }
            ValueForm::Case(case, content) => self.case(value, case, content, known, sheet),
        }
    }

    /// A case, and its content, which is of the case's type.
    fn case(
        &mut self,
        value: &Value,
        case: &Step,
        content: &Value,
        known: Known,
        sheet: &mut Sheet,
    ) {
        let number = self.case_number(case, known).unwrap_or_default();
        let of = self.case_type(number, known);
        // More cases than a byte counts are a mistake of their variant.
        let number = u8::try_from(number).unwrap_or(u8::MAX);
        let head = sheet.push(Record::new(5, number, [0; 3]), value.at);
        self.value_records(content, of, sheet);
        sheet.close(head);
    }

    fn children(&mut self, children: &[(Option<Name>, Value)], known: Known, sheet: &mut Sheet) {
        let form = self.rows.form(known);
        let fields = match form {
            Some(TypeForm::Record(fields)) => fields.as_slice(),
            _ => &[],
        };
        for (number, (label, value)) in children.iter().enumerate() {
            let field = fields.get(number);
            // Where no type is known, something before the value is wrong, and the label may be right.
            if let (Some(label), Some(_)) = (label, form) {
                self.label(label, field);
            }
            let of = field.and_then(|field| self.rows.type_named(&field.of));
            self.value_records(value, of, sheet);
        }
    }

    /// A label must name the field in whose place its value stands.
    fn label(&mut self, label: &Name, field: Option<&Field>) {
        let word = named(&label.word);
        match field {
            Some(field) if field.name.word == label.word => {}
            Some(field) => {
                let due = named(&field.name.word);
                let message = format!("the field {due} comes here, not {word}");
                self.mistake(label.at, message);
            }
            None => {
                let message = format!("{word} labels a value where the declared type has no field");
                self.mistake(label.at, message);
            }
        }
    }
}
