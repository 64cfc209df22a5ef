//! Random data of the type that a description declares, as JSON and as a description's value.

use super::random::Random;
use kit::language::description::{Class, ClassForm, Description, TypeForm};

/// Data, which can be written in both forms.
pub enum Data {
    Text(String),
    YesNo(bool),
    List(Vec<Data>),
    Record(Vec<(String, Data)>),
    Case(String, Box<Data>),
}

/// Texts that are refused by most classes, or need escapes.
const TEXTS: [&str; 8] = [
    "",
    "\0",
    "a\u{B}b",
    "\u{FFFE}",
    "<b>&'\"",
    "tab\tline\nend\r",
    "\u{1F305}é",
    "\u{85}\u{2028}",
];

pub struct Maker<'a> {
    tree: &'a Description,
    random: &'a mut Random,
    /// How many values are made yet.
    made: usize,
    /// Once in so many values something else is made; never if 0.
    slips: usize,
}

/// How many values are made before lists stay empty.
const VALUES: usize = 150;

/// How many are made at most: more than a stream holds.
const MOST: usize = 9000;

/// How deep lists of lists go.
const DEEPEST: usize = 12;

/// Data for a description, if it declares a type.
pub fn data(random: &mut Random, tree: &Description, slips: usize) -> Option<Data> {
    let declared = match tree.templates.first()?.parameters.as_slice() {
        [only] => &only.of.word,
        _ => return None,
    };
    let mut maker = Maker {
        tree,
        random,
        made: 0,
        slips,
    };
    Some(maker.of_type(declared, 0))
}

impl Maker<'_> {
    fn of_type(&mut self, name: &str, depth: usize) -> Data {
        self.made += 1;
        let slip = self.slips > 0 && self.random.one_in(self.slips);
        let found = self.tree.types.iter().find(|it| it.name.word == name);
        // Fields of later types may lead back to their own record.
        let Some(found) = found.filter(|_| !slip && depth < 20 && self.made < MOST) else {
            return self.anything();
        };
        match &found.form {
            TypeForm::Text(class) => Data::Text(self.text(&class.word)),
            TypeForm::YesNo => Data::YesNo(self.random.one_in(2)),
            TypeForm::List(of) => {
                let most = match (depth < DEEPEST && self.made < VALUES, self.random.below(60)) {
                    (false, _) => 0,
                    (_, 0) => 3000,
                    _ => 6,
                };
                let count = self.random.mostly_small(most);
                Data::List(
                    (0..count)
                        .map(|_| self.of_type(&of.word, depth + 1))
                        .collect(),
                )
            }
            TypeForm::Record(fields) => {
                let of = |it: &kit::language::description::Field| {
                    let value = self.of_type(&it.of.word, depth + 1);
                    (it.name.word.clone(), value)
                };
                Data::Record(fields.iter().map(of).collect())
            }
            TypeForm::Variant(cases) if cases.is_empty() => self.anything(),
            TypeForm::Variant(cases) => {
                let case = self.random.pick(cases);
                let content = self.of_type(&case.of.word, depth + 1);
                Data::Case(case.name.word.clone(), Box::new(content))
            }
        }
    }

    fn anything(&mut self) -> Data {
        match self.random.below(6) {
            0 => Data::YesNo(true),
            5 => Data::Case("k0".to_string(), Box::new(Data::YesNo(true))),
            1 => Data::List(vec![Data::Text("a".to_string())]),
            2 => Data::Record(vec![("f0".to_string(), Data::YesNo(false))]),
            _ => Data::Text(self.random.pick(&TEXTS).to_string()),
        }
    }

    /// A lexeme of a class, mostly.
    fn text(&mut self, class: &str) -> String {
        if self.slips > 0 && self.random.one_in(self.slips) {
            let times = self.random.mostly_small(400);
            return self.random.pick(&TEXTS).repeat(times);
        }
        let is_it = |it: &&Class| it.name.word == class;
        match self.tree.classes.iter().find(is_it).map(|it| &it.form) {
            Some(ClassForm::Plain {
                least,
                most,
                ranges,
            }) => {
                let (least, most) = (usize::from(*least), usize::from(*most));
                let more = self.random.mostly_small(most.saturating_sub(least).min(30));
                let count = (least + more).min(400);
                (0..count).map(|_| self.character(ranges)).collect()
            }
            _ => "escaped".to_string(),
        }
    }

    fn character(&mut self, ranges: &[kit::language::description::Range]) -> char {
        if ranges.is_empty() {
            return 'a';
        }
        let range = self.random.pick(ranges);
        let (low, high) = (range.lowest.min(range.highest), range.highest);
        let point = low + self.random.below((high - low) as usize + 1) as u32;
        let admitted =
            |it: &char| matches!(it, '\t' | '\n' | '\r' | ' '..='\u{FFFD}' | '\u{10000}'..);
        char::from_u32(point).filter(admitted).unwrap_or('a')
    }
}

impl Data {
    /// The data as the value part of a description writes it.
    pub fn as_value(&self) -> String {
        match self {
            Self::Text(text) => described(text),
            Self::YesNo(yes) => if *yes { "yes" } else { "no" }.to_string(),
            Self::List(items) => {
                let items: Vec<String> = items.iter().map(Self::as_value).collect();
                format!("[ {} ]", items.join(" "))
            }
            Self::Record(children) => {
                let children: Vec<String> = children.iter().map(|(_, it)| it.as_value()).collect();
                format!("{{ {} }}", children.join("\n"))
            }
            Self::Case(case, content) => {
                format!("case {} {}", described(case), content.as_value())
            }
        }
    }

    /// The data as JSON; the keys of a record in another order, now and then.
    pub fn as_json(&self, random: &mut Random) -> String {
        let (open, close, words) = match self {
            Self::Text(text) => return quoted(random, text),
            Self::YesNo(yes) => return yes.to_string(),
            Self::List(items) => {
                let items: Vec<String> = items.iter().map(|it| it.as_json(random)).collect();
                ('[', ']', items)
            }
            Self::Record(children) => {
                let member = |(key, value): &(String, Self)| {
                    format!("{}: {}", quoted(random, key), value.as_json(random))
                };
                let mut members: Vec<String> = children.iter().map(member).collect();
                if random.one_in(3) {
                    members.reverse();
                }
                ('{', '}', members)
            }
            Self::Case(case, content) => {
                let (key, content) = (quoted(random, case), content.as_json(random));
                ('{', '}', vec![format!("{key}: {content}")])
            }
        };
        let between = *random.pick(&[",", ", ", ",\n  ", "\r\n,\t"]);
        format!("{open}{}{close}", words.join(between))
    }
}

/// A text as a description writes it.
fn described(text: &str) -> String {
    let escape = |character: char| match character {
        '"' | '\\' => format!("\\{character}"),
        ' '..='~' => character.to_string(),
        other => format!("\\u{{{:X}}}", u32::from(other)),
    };
    format!("\"{}\"", text.chars().map(escape).collect::<String>())
}

/// A text as JSON writes it, with more escapes than needed, now and then.
fn quoted(random: &mut Random, text: &str) -> String {
    if !random.one_in(4) {
        return kit::json::quoted(text);
    }
    let units = text.encode_utf16().map(|unit| format!("\\u{unit:04x}"));
    format!("\"{}\"", units.collect::<String>())
}
