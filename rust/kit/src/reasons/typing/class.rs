//! What stands where a class is asked for: a literal or a place.

use super::{Fault, Here};
use crate::reasons::characters::{characters_due, is_lexeme, lexeme_rule, text_found};
use crate::reasons::classes::Class;
use crate::reasons::context::WIDEST;
use crate::reasons::due::text_bytes;
use crate::reasons::escapes::{bare_character, plain_of};
use crate::reasons::nodes::Form;
use crate::reasons::paper::{CLASS, ESCAPED, LEXEME};
use crate::reasons::types::Shape;
use crate::streams::record::Record;
use crate::words::{cut, quoted};

/// A plain class: its number, its record and its ranges.
type Plain<'a> = (u16, Record, &'a [Record]);

impl Here<'_> {
    /// What is wrong with a node where a class is asked for.
    pub(super) fn in_class(&self, form: Form, class: u16) -> Option<Fault> {
        let (plain, escaped) = self.plain(class)?;
        match form {
            Form::Literal if escaped => self.escaped_literal(plain),
            Form::Literal => self.literal(plain),
            Form::Place => self.place(plain, escaped),
            _ => {
                let why =
                    format!("a literal or a place stands for a class, and {form} stands here");
                let mut fault = self.misplaced(CLASS, why);
                fault.said[0] = self.class_asked(plain.0);
                Some(fault)
            }
        }
    }

    /// The plain class that a class is or is made of, and whether it is an escaped one.
    fn plain(&self, class: u16) -> Option<(Plain<'_>, bool)> {
        let row = &self.tables.classes;
        let (number, escaped) = match *row.get(usize::from(class))? {
            Class::Plain { .. } => (class, false),
            Class::Escaped(plain) => (plain, true),
        };
        match *row.get(usize::from(number))? {
            Class::Plain { head, ranges } => Some(((number, head, ranges), escaped)),
            Class::Escaped(_) => None,
        }
    }

    /// The class that is asked for, with the plain one that an escaped one is made of.
    fn class_asked(&self, plain: u16) -> String {
        let (class, asker) = (self.site.position, self.site.asker.called(self.names));
        let (class, plain) = (class.called(self.names), self.names.class(plain));
        match class == plain {
            true => format!("{class} is asked for here, {asker}"),
            false => format!("{class}, the escaped form of {plain}, is asked for here, {asker}"),
        }
    }

    fn text(&self) -> Option<Vec<u8>> {
        let length = usize::from(self.head.b());
        text_bytes(self.tables.records, self.site.node, length)
    }

    /// A literal in the position of a plain class.
    fn literal(&self, (number, head, ranges): Plain<'_>) -> Option<Fault> {
        let text = self.text()?;
        let due = characters_due(head, ranges);
        (!is_lexeme(&text, head, ranges)).then(|| Fault {
            rule: lexeme_rule(&text),
            said: vec![
                format!("{}: {due}", self.class_asked(number)),
                text_found(&text, head, ranges),
            ],
        })
    }

    /// A literal in the position of an escaped class.
    fn escaped_literal(&self, (number, head, ranges): Plain<'_>) -> Option<Fault> {
        let text = self.text()?;
        let mut said = vec![
            self.class_asked(number),
            "a literal is written as it stands, so it must be the escaped text itself".to_string(),
        ];
        let rule = match (plain_of(&text), std::str::from_utf8(&text)) {
            (Some(plain), _) if is_lexeme(&plain, head, ranges) => return None,
            (Some(plain), _) => {
                said.push(format!("it stands for {}", cut(&quoted(&plain), WIDEST)));
                said.push(format!("due are {}", characters_due(head, ranges)));
                said.push(text_found(&plain, head, ranges));
                lexeme_rule(&plain)
            }
            (None, Ok(text)) => {
                said.extend(bare_character(text));
                ESCAPED
            }
            (None, Err(_)) => {
                said.push(text_found(&text, head, ranges));
                LEXEME
            }
        };
        Some(Fault { rule, said })
    }

    /// A place, whose text must be of the plain class.
    fn place(&self, (number, ..): Plain<'_>, escaped: bool) -> Option<Fault> {
        let path = self.paths().next()?;
        let found = match self.along(path) {
            Err(missing) => return Some(missing),
            Ok(found) => found,
        };
        let mut said = vec![self.class_asked(number)];
        if escaped {
            let plain = self.names.class(number);
            said.push(format!("a place here has a text of {plain}"));
        }
        let what = format!("{} finds {}", self.path_called(path), self.found(found));
        said.push(match self.tables.types.shape(found)? {
            Shape::Text(class) if class == number => return None,
            Shape::Text(_) => what,
            _ => format!("{what}, not a text"),
        });
        let rule = if escaped { ESCAPED } else { CLASS };
        Some(Fault { rule, said })
    }
}
