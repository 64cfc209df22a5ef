//! A value of a variant from JSON: an object whose one key is the name of its case.

use super::Reader;
use crate::json::{Json, Key};
use crate::language::description::Field;
use crate::language::rows::meant_or_known;
use crate::mistake::{Mistake, MOST_FOUND};
use crate::streams::record::Record;
use crate::words::{named, shown};

/// The keys that an object for a variant may have, of which it has one.
pub(super) fn one_key(cases: &[Field]) -> String {
    let keys: Vec<&str> = cases.iter().map(|it| it.name.word.as_str()).collect();
    match keys.as_slice() {
        [only] => format!("the key {}", named(only)),
        several => format!("one of the keys {}", shown(&several.join(", "), 100)),
    }
}

impl Reader<'_> {
    /// A value of a variant: the case that the key names, and below it its content.
    pub(super) fn variant(
        &mut self,
        json: &Json,
        name: &str,
        cases: &[Field],
        members: &[(Key, Json)],
    ) {
        if members.is_empty() {
            let message = format!(
                "this object has no key: type {} asks for {}",
                named(name),
                one_key(cases)
            );
            return self.mistake(json, message, Vec::new());
        }
        let mut first = None;
        for (key, value) in members {
            if self.mistakes.len() >= MOST_FOUND {
                return;
            }
            let case = cases.iter().position(|it| it.name.word == key.word);
            match (case, first) {
                (None, _) => self.no_case(name, cases, key),
                (Some(_), Some(first)) => self.second_case(name, first, key),
                (Some(number), None) => {
                    first = Some(key);
                    self.case(json, &cases[number], number, value);
                }
            }
        }
    }

    fn case(&mut self, json: &Json, case: &Field, number: usize, content: &Json) {
        // A description with more cases than a byte counts has been refused before.
        let number = u8::try_from(number).unwrap_or(u8::MAX);
        let head = self.sheet.push(Record::new(5, number, [0; 3]), json.at);
        let outside = self.path.field(&case.name.word);
        let of = self.rows.type_named(&case.of);
        self.value(content, of.unwrap_or_default());
        self.path.leave(outside);
        self.sheet.close(head);
    }

    /// A key that is the name of no case.
    fn no_case(&mut self, name: &str, cases: &[Field], key: &Key) {
        let names = cases.iter().map(|it| it.name.word.as_str());
        let near = meant_or_known(&key.word, names, self.mistakes.len(), "it has");
        let why = format!("this key names no case of type {}{near}", named(name));
        self.wrong_key(key, &why);
    }

    /// A second key that is the name of a case.
    fn second_case(&mut self, name: &str, first: &Key, key: &Key) {
        let (name, first) = (named(name), named(&first.word));
        self.wrong_key(
            key,
            &format!(
                "this key is surplus: a value of type {name} has one case, \
                 and {first} stands before it"
            ),
        );
    }

    /// The mistake of a key that should not be there.
    pub(super) fn wrong_key(&mut self, key: &Key, why: &str) {
        let outside = self.path.field(&key.word);
        let message = format!("{}: {why}", self.path);
        self.mistakes.push(Mistake::new(key.at, message));
        self.path.leave(outside);
    }
}
