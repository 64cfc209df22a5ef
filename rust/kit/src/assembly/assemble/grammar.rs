//! The records of the grammar.

use super::Assembler;
use crate::assembly::sheet::{word, Sheet, What};
use crate::language::description::{
    Class, ClassForm, Description, Element, Name, Production, Range,
};
use crate::language::rows::{numbered, unknown};
use crate::streams::record::Record;
use crate::words::named;

impl Assembler<'_> {
    /// The classes, then the productions. One past the numbers of its row is a mistake that
    /// [`Rows`](crate::language::rows::Rows) has told.
    pub(super) fn grammar(&mut self, tree: &Description) -> Sheet {
        let mut sheet = Sheet::default();
        for (number, class) in (0..=u8::MAX).zip(&tree.classes) {
            self.class(number, class, &mut sheet);
        }
        for (number, production) in (0..=u16::MAX).zip(&tree.productions) {
            self.production(number, production, &mut sheet);
        }
        sheet
    }

    fn class(&mut self, number: u8, class: &Class, sheet: &mut Sheet) {
        let Name { word: name, at } = &class.name;
        match &class.form {
            ClassForm::Plain {
                least,
                most,
                ranges,
            } => {
                let head = Record::new(1, number, [*least, *most, word(ranges.len())]);
                sheet.push_named(head, *at, What::Class, name);
                for range in ranges {
                    sheet.push(range_record(range), range.at);
                }
            }
            ClassForm::Escaped(plain) => {
                let plain = numbered(&self.rows.classes, plain, "class", &mut self.mistakes);
                let head = Record::new(5, number, [plain, 0, 0]);
                sheet.push_named(head, *at, What::Class, name);
            }
        }
    }

    /// A production, whose number has its low byte in a and its high byte in c.
    fn production(&mut self, number: u16, production: &Production, sheet: &mut Sheet) {
        let [low, high] = number.to_le_bytes();
        let nonterminal = &production.nonterminal.word;
        let of = self.rows.nonterminals.get(nonterminal.as_str()).copied();
        let count = word(production.elements.len());
        let head = Record::new(3, low, [of.unwrap_or_default(), high.into(), count]);
        let Name { word: name, at } = &production.name;
        let index = sheet.push_named(head, *at, What::Production, name);
        let names = &mut sheet.origins[index].names;
        names.push((What::Nonterminal, nonterminal.clone()));
        for element in &production.elements {
            self.element(element, sheet);
        }
    }

    fn element(&mut self, element: &Element, sheet: &mut Sheet) {
        let at = element.at();
        match element {
            Element::Keyword(text) => {
                let length = self.text_length(text);
                sheet.push(Record::new(4, 0, [length, 0, 0]), at);
                sheet.push_text(&text.bytes, text.at);
            }
            Element::One(name) => self.one(name, sheet),
            Element::Many(name, separator) => {
                let many = self.repeated(name);
                let head = match separator {
                    None => Record::new(4, 3, [many, 0, 0]),
                    Some(text) => Record::new(4, 4, [many, self.text_length(text), 0]),
                };
                sheet.push_named(head, at, What::Nonterminal, &name.word);
                if let Some(text) = separator {
                    sheet.push_text(&text.bytes, text.at);
                }
            }
        }
    }

    /// An element that is a class or a nonterminal, whichever has the name.
    fn one(&mut self, name: &Name, sheet: &mut Sheet) {
        let (classes, nonterminals) = (&self.rows.classes, &self.rows.nonterminals);
        let word = name.word.as_str();
        let (form, number, what) = match (classes.get(word), nonterminals.get(word)) {
            (Some(&class), _) => (1, class, What::Class),
            (None, Some(&nonterminal)) => (2, nonterminal, What::Nonterminal),
            (None, None) => {
                let known = classes.keys().chain(nonterminals.keys()).copied();
                let mistake = unknown("class or nonterminal", name, known, self.mistakes.len());
                return self.mistakes.push(mistake);
            }
        };
        sheet.push_named(Record::new(4, form, [number, 0, 0]), name.at, what, word);
    }

    fn repeated(&mut self, name: &Name) -> u16 {
        if self.rows.classes.contains_key(name.word.as_str()) {
            let word = named(&name.word);
            let message = format!("{word} is a class, and only a nonterminal is repeated");
            self.mistake(name.at, message);
            return 0;
        }
        let row = &self.rows.nonterminals;
        numbered(row, name, "nonterminal", &mut self.mistakes)
    }
}

fn range_record(range: &Range) -> Record {
    let [l0, l1, l2, _] = range.lowest.to_le_bytes();
    let [h0, h1, h2, _] = range.highest.to_le_bytes();
    Record([2, l0, l1, l2, h0, h1, h2, 0])
}
