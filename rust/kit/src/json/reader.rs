//! Reads the one value of a JSON file. What is open stands on a list of its own, so that no nesting
//! exhausts the stack.

use super::due::Due;
use super::source::Source;
use super::{bare, slips, text, Form, Json, Key, MOST_DEEP};
use crate::mistake::{Mistake, Position};
use crate::words::shown;
use std::collections::HashMap;

type Parsed<T> = Result<T, Mistake>;

/// What a part of the reading came to.
enum Step {
    /// A value is read to its end.
    Done(Json),
    /// A value of something open is due.
    Within(Due),
}

/// An array or an object that is not closed yet.
struct Open {
    at: Position,
    inside: Inside,
}

enum Inside {
    List(Vec<Json>),
    Object(Members),
}

impl Inside {
    fn signs(&self) -> (char, char) {
        match self {
            Self::List(_) => ('[', ']'),
            Self::Object(_) => ('{', '}'),
        }
    }

    /// What is due after one of its values.
    fn after(&self) -> Due {
        match self {
            Self::List(_) => Due::ItemEnd,
            Self::Object(_) => Due::MemberEnd,
        }
    }

    /// Puts a value in.
    fn push(&mut self, value: Json) {
        match self {
            Self::List(found) => found.push(value),
            Self::Object(members) => {
                let key = members.key.take();
                members.found.extend(key.map(|key| (key, value)));
            }
        }
    }

    fn form(self) -> Form {
        match self {
            Self::List(found) => Form::List(found),
            Self::Object(members) => Form::Object(members.found),
        }
    }
}

#[derive(Default)]
struct Members {
    found: Vec<(Key, Json)>,
    /// The key whose value is being read.
    key: Option<Key>,
    /// The lines of all keys.
    lines: HashMap<String, usize>,
}

impl Members {
    /// Takes a key, if it is new.
    fn expect(&mut self, key: Key) -> Parsed<()> {
        if let Some(line) = self.lines.insert(key.word.clone(), key.at.line) {
            return Err(twice(&key, line));
        }
        self.key = Some(key);
        Ok(())
    }
}

/// The mistake of a key that stands at a line already.
fn twice(key: &Key, line: usize) -> Mistake {
    let called = match key.word.as_str() {
        "" => "the empty key".to_string(),
        word => format!("the key {}", shown(word, slips::MOST_SHOWN)),
    };
    Mistake::new(
        key.at,
        format!("{called} stands in this object already, at line {line}"),
    )
}

pub(super) struct Reader<'a> {
    source: Source<'a>,
    open: Vec<Open>,
}

impl<'a> Reader<'a> {
    pub(super) fn new(file: &'a str) -> Self {
        Self {
            source: Source::new(file),
            open: Vec::new(),
        }
    }

    /// The one value of the file.
    pub(super) fn document(mut self) -> Parsed<Json> {
        self.source.skip_blanks();
        let mut due = Due::Value;
        loop {
            due = match self.value(due)? {
                Step::Within(due) => due,
                Step::Done(value) => match self.place(value)? {
                    Step::Within(due) => due,
                    Step::Done(value) => return self.end(value),
                },
            };
        }
    }

    /// A value, or the start of one.
    fn value(&mut self, due: Due) -> Parsed<Step> {
        let at = self.source.at();
        let form = match self.source.peek() {
            Some('[') => return self.open(Inside::List(Vec::new()), Due::FirstItem),
            Some('{') => return self.open(Inside::Object(Members::default()), Due::FirstKey),
            Some('"') => Form::Text(text::text(&mut self.source)?),
            _ => self.bare(due)?,
        };
        Ok(Step::Done(Json { at, form }))
    }

    fn bare(&mut self, due: Due) -> Parsed<Form> {
        let mut source = self.source;
        match bare::form(source.run(bare::is_bare)) {
            Some(form) => {
                self.source = source;
                Ok(form)
            }
            None => Err(self.unexpected(due)),
        }
    }

    /// Opens an array or an object, and closes it if it is empty.
    fn open(&mut self, inside: Inside, first: Due) -> Parsed<Step> {
        let at = self.source.at();
        if self.open.len() == MOST_DEEP {
            return Err(Mistake::new(
                at,
                format!("this nests over {MOST_DEEP} deep"),
            ));
        }
        self.source.next();
        self.source.skip_blanks();
        if self.source.accept(inside.signs().1) {
            let form = inside.form();
            return Ok(Step::Done(Json { at, form }));
        }
        self.open.push(Open { at, inside });
        self.within(first)
    }

    /// Goes on to the next value of what is open: in an object, past its key.
    fn within(&mut self, due: Due) -> Parsed<Step> {
        if !due.is_key() {
            return Ok(Step::Within(due));
        }
        let at = self.source.at();
        if self.source.peek() != Some('"') {
            return Err(self.unexpected(due));
        }
        let word = text::text(&mut self.source)?;
        if let Some(Inside::Object(members)) = self.open.last_mut().map(|it| &mut it.inside) {
            members.expect(Key { word, at })?;
        }
        self.source.skip_blanks();
        if !self.source.accept(':') {
            return Err(self.unexpected(Due::Colon));
        }
        self.source.skip_blanks();
        Ok(Step::Within(Due::Value))
    }

    /// Puts a value where it belongs, and closes all that ends after it.
    fn place(&mut self, mut value: Json) -> Parsed<Step> {
        while let Some(mut open) = self.open.pop() {
            open.inside.push(value);
            self.source.skip_blanks();
            if !self.source.accept(open.inside.signs().1) {
                self.open.push(open);
                return self.comma();
            }
            let (at, form) = (open.at, open.inside.form());
            value = Json { at, form };
        }
        Ok(Step::Done(value))
    }

    /// The comma after a value of what is open, and what is due after it.
    fn comma(&mut self) -> Parsed<Step> {
        let after = self
            .open
            .last()
            .map_or(Due::FileEnd, |it| it.inside.after());
        let next = match after {
            Due::ItemEnd => Due::NextItem,
            _ => Due::NextKey,
        };
        let at = self.source.at();
        if !self.source.accept(',') {
            return Err(self.unexpected(after));
        }
        self.source.skip_blanks();
        match (self.source.peek(), next) {
            (Some(']'), Due::NextItem) | (Some('}'), Due::NextKey) => Err(Mistake::new(
                at,
                format!("a trailing comma: {}", self.unexpected(next).message),
            )),
            _ => self.within(next),
        }
    }

    /// The whole value, if nothing stands after it.
    fn end(mut self, value: Json) -> Parsed<Json> {
        self.source.skip_blanks();
        match self.source.peek() {
            None => Ok(value),
            Some(_) => Err(self.unexpected(Due::FileEnd)),
        }
    }

    /// The mistake of something else than what is due.
    fn unexpected(&self, due: Due) -> Mistake {
        let rest = self.source.rest();
        let mut message = format!("{}, not {}", due.called(), slips::standing(rest));
        if let Some(word) = slips::word(&self.source, due) {
            message.push_str(&format!(": {word}"));
        } else if let Some(open) = self.unclosed() {
            let (sign, at) = (open.inside.signs().0, open.at);
            message.push_str(&format!(
                ": the `{sign}` at line {}, column {} is not closed",
                at.line, at.column
            ));
        }
        Mistake::new(self.source.at(), message)
    }

    /// The innermost of what is open, if the file ends or another sign closes here.
    fn unclosed(&self) -> Option<&Open> {
        let open = self.open.last()?;
        let due = open.inside.signs().1;
        match self.source.peek() {
            None => Some(open),
            Some(sign) => (matches!(sign, ']' | '}') && sign != due).then_some(open),
        }
    }
}
