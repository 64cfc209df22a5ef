//! A value from JSON, by the type that a description declares.

mod cases;

use crate::assembly::assemble::Assembled;
use crate::assembly::path::DataPath;
use crate::assembly::sheet::{word, Sheet};
use crate::json::{Form, Json, Key};
use crate::language::description::{Description, Field, TypeForm};
use crate::language::rows::{meant, Rows};
use crate::mistake::{Mistake, MOST_FOUND};
use crate::reasons::characters::is_lexeme;
use crate::reasons::classes::{classes, Class};
use crate::reasons::due::text_lines;
use crate::reasons::paper::{headline, Why};
use crate::streams::record::{Record, RECORD, STREAM_RECORDS};
use crate::words::{named, shown};
use cases::one_key;
use feed::Refusal;
use std::collections::{HashMap, HashSet};

/// The records of a value, each with its place in the JSON.
///
/// # Errors
/// All places where the data isn't of the declared type.
pub fn value(tree: &Description, set: &Assembled, json: &Json) -> Result<Sheet, Vec<Mistake>> {
    let rows = Rows::of(tree, &mut Vec::new());
    let Some(declared) = rows.declared(tree) else {
        let message = "the description declares no type for the data: \
                       its first template is the root, and takes one parameter";
        return Err(vec![Mistake::new(json.at, message)]);
    };
    let mut reader = Reader {
        rows: &rows,
        classes: classes(&set.grammar.sheet.records),
        sheet: Sheet::default(),
        mistakes: Vec::new(),
        path: DataPath::default(),
    };
    reader.value(json, declared);
    match reader.mistakes.is_empty() {
        true => Ok(reader.sheet),
        false => Err(reader.mistakes),
    }
}

/// The bytes of the longest text that a stream holds beside its head.
const MOST_BYTES: usize = (STREAM_RECORDS - 1) * RECORD;

struct Reader<'a> {
    rows: &'a Rows<'a>,
    classes: Vec<Class<'a>>,
    sheet: Sheet,
    mistakes: Vec<Mistake>,
    path: DataPath,
}

impl<'a> Reader<'a> {
    fn value(&mut self, json: &Json, of: u16) {
        if self.mistakes.len() >= MOST_FOUND {
            return;
        }
        let Some((name, form)) = self.rows.forms.get(usize::from(of)) else {
            return;
        };
        match (form, &json.form) {
            (TypeForm::Text(class), Form::Text(text)) => self.text(json, &class.word, text),
            (TypeForm::YesNo, Form::Flag(yes)) => {
                let record = Record::new(2, u8::from(*yes), [0; 3]);
                self.sheet.push(record, json.at);
            }
            (TypeForm::List(item), Form::List(items)) => {
                let item = self.rows.type_named(item);
                self.list(json, items, item.unwrap_or_default());
            }
            (TypeForm::Record(fields), Form::Object(members)) => {
                self.record(json, name, fields, members);
            }
            (TypeForm::Variant(cases), Form::Object(members)) => {
                self.variant(json, name, cases, members);
            }
            (form, _) => self.another(json, form),
        }
    }

    fn text(&mut self, json: &Json, class: &str, text: &str) {
        // Past what a stream holds the data is refused anyway, and to judge all of it may take long.
        let judged = self.sheet.records.len() <= STREAM_RECORDS;
        let right = !judged || self.is_lexeme(json, class, text);
        let length = text.len();
        if right && u16::try_from(length).is_err() {
            let message =
                format!("this text has {length} bytes, and a stream has room for {MOST_BYTES}");
            self.mistake(json, message, Vec::new());
        }
        let head = Record::new(1, 0, [word(length), 0, 0]);
        let head = self.sheet.push(head, json.at);
        self.sheet.push_text(text.as_bytes(), json.at);
        self.sheet.close(head);
    }

    /// A text must be a lexeme of its class. An escaped class is refused by the check, whatever the text is.
    fn is_lexeme(&mut self, json: &Json, class: &str, text: &str) -> bool {
        let number = self.rows.classes.get(class).copied().unwrap_or_default();
        let Some(&Class::Plain { head, ranges }) = self.classes.get(usize::from(number)) else {
            return true;
        };
        let right = is_lexeme(text.as_bytes(), head, ranges);
        if !right {
            let message = headline(Refusal::ValueType { record: 0 }, Why::Number);
            let class = format!("class {}", named(class));
            let lines = text_lines(&class, head, ranges, Some(text.as_bytes()));
            self.mistake(json, message, lines);
        }
        right
    }

    fn list(&mut self, json: &Json, items: &[Json], of: u16) {
        let head = Record::new(3, 0, [0, 0, word(items.len())]);
        let head = self.sheet.push(head, json.at);
        for (number, item) in items.iter().enumerate() {
            let outside = self.path.item(number);
            self.value(item, of);
            self.path.leave(outside);
        }
        self.sheet.close(head);
    }

    /// A record: the fields in the order of the type, whatever the order of the keys is.
    fn record(&mut self, json: &Json, name: &str, fields: &[Field], members: &[(Key, Json)]) {
        let by_key: HashMap<&str, &Json> = members
            .iter()
            .map(|(key, value)| (key.word.as_str(), value))
            .collect();
        let head = Record::new(4, 0, [0, 0, word(fields.len())]);
        let head = self.sheet.push(head, json.at);
        for field in fields {
            let outside = self.path.field(&field.name.word);
            match by_key.get(field.name.word.as_str()) {
                Some(value) => {
                    let of = self.rows.type_named(&field.of);
                    self.value(value, of.unwrap_or_default());
                }
                None => {
                    let holder = named(name);
                    let message = format!("this key is missing: type {holder} has such a field");
                    self.mistake(json, message, Vec::new());
                }
            }
            self.path.leave(outside);
        }
        self.sheet.close(head);
        self.surplus(name, fields, members);
    }

    /// Keys that are no fields.
    fn surplus(&mut self, name: &str, fields: &[Field], members: &[(Key, Json)]) {
        let known: HashSet<&str> = fields.iter().map(|it| it.name.word.as_str()).collect();
        for (key, _) in members
            .iter()
            .filter(|(key, _)| !known.contains(key.word.as_str()))
        {
            if self.mistakes.len() >= MOST_FOUND {
                return;
            }
            let near = meant(
                &key.word,
                fields.iter().map(|it| it.name.word.as_str()),
                self.mistakes.len(),
            );
            let name = named(name);
            let why = format!("this key is surplus: type {name} has no such field{near}");
            self.wrong_key(key, &why);
        }
    }

    /// Something else than the type asks for.
    fn another(&mut self, json: &Json, form: &TypeForm) {
        let due = match form {
            TypeForm::Text(class) => format!("a text of class {}", named(&class.word)),
            TypeForm::YesNo => "true or false".to_string(),
            TypeForm::List(of) => format!("an array (a list of type {})", named(&of.word)),
            TypeForm::Record(fields) => {
                let keys: Vec<&str> = fields.iter().map(|it| it.name.word.as_str()).collect();
                format!("an object with the keys {}", shown(&keys.join(", "), 100))
            }
            TypeForm::Variant(cases) => format!("an object with {}", one_key(cases)),
        };
        let hint = match (form, &json.form) {
            (TypeForm::Text(_), Form::Number(_)) => ": write it in quotes",
            _ => "",
        };
        let message = format!("{due} is due here, not {}{hint}", json.called());
        self.mistake(json, message, Vec::new());
    }

    fn mistake(&mut self, json: &Json, message: String, remarks: Vec<String>) {
        let message = format!("{}: {message}", self.path);
        self.mistakes
            .push(Mistake::new(json.at, message).with(remarks));
    }
}

#[cfg(test)]
mod tests {
    use super::*;
    use crate::json::parse;
    use crate::mistake::end_of;

    /// How many mistakes are found in data for a list of records with so many fields.
    fn found(fields: usize, data: &str) -> usize {
        let fields: String = (0..fields).map(|it| format!("f{it}: t ")).collect();
        of_type(&format!("record {{ {fields} }}"), data)
    }

    /// How many mistakes are found in data for a list of a type.
    fn of_type(form: &str, data: &str) -> usize {
        let text = format!(
            "class c 0 to 1 {{ }} production p of n = type t = yesno type r = {form} \
             type l = list r template m (x: l) of n = build p"
        );
        let tree = crate::language::parser::parse(&text).expect("a tree");
        let set = Assembled::of(&tree, end_of(&text)).expect("streams");
        let json = parse(data.as_bytes()).expect("JSON");
        value(&tree, &set, &json).map_or_else(|mistakes| mistakes.len(), |_| 0)
    }

    #[test]
    fn mistakes_are_looked_for_up_to_very_many() {
        assert_eq!(found(30, "[{}, {}, {}]"), 90);
        let empty = format!("[{}{{}}]", "{},".repeat(100_000));
        assert_eq!(found(300, &empty), 1200);
        let keys: Vec<String> = (0..5000).map(|it| format!("\"g{it}\": 1")).collect();
        assert_eq!(found(1, &format!("[{{ {} }}]", keys.join(","))), MOST_FOUND);
    }

    #[test]
    fn texts_past_what_a_stream_holds_are_not_judged() {
        let text = format!("\"{}\"", "b".repeat(60_000));
        assert_eq!(of_type("text c", &format!("[{text}, {text}]")), 2);
        let many = vec![text; 60].join(",");
        assert_eq!(of_type("text c", &format!("[{many}]")), 2);
    }
}
