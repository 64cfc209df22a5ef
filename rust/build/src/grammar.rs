//! Grammars: plain and escaped classes, productions with elements.

use crate::blocks::blocks;
use crate::records::{record, text_units, word, Record};
use crate::GRAMMAR;

/// A grammar to be built. Classes and productions are numbered in the order they come in.
#[derive(Clone, Debug, Default)]
pub struct Grammar {
    /// The classes by number.
    pub classes: Vec<Class>,
    /// The productions by number.
    pub productions: Vec<Production>,
}

/// A class of lexemes.
#[derive(Clone, Debug)]
pub enum Class {
    /// One with its own characters.
    Plain(PlainClass),
    /// The lexemes of the plain class with this number, escaped.
    Escaped(u16),
}

/// A class with its own characters.
#[derive(Clone, Debug)]
pub struct PlainClass {
    /// The least number of characters.
    pub least: u16,
    /// The greatest number of characters.
    pub most: u16,
    /// Ranges of code points, both ends included.
    pub ranges: Vec<(u32, u32)>,
}

/// A production of a nonterminal.
#[derive(Clone, Debug)]
pub struct Production {
    /// The nonterminal's number.
    pub nonterminal: u16,
    /// Its elements in order.
    pub elements: Vec<Element>,
}

/// An element of a production.
#[derive(Clone, Debug)]
pub enum Element {
    /// These very bytes.
    Keyword(Vec<u8>),
    /// A lexeme of a class.
    Class(u16),
    /// A text of a nonterminal.
    Nonterminal(u16),
    /// Any number of texts of a nonterminal.
    Repetition(u16),
    /// Any number of texts of a nonterminal, with these bytes between neighbours.
    Separated(u16, Vec<u8>),
}

impl Element {
    /// A keyword from a text.
    pub fn keyword(text: impl Into<Vec<u8>>) -> Self {
        Element::Keyword(text.into())
    }

    /// A repetition of a nonterminal with a separator.
    pub fn separated(nonterminal: u16, separator: impl Into<Vec<u8>>) -> Self {
        Element::Separated(nonterminal, separator.into())
    }
}

impl Grammar {
    /// A grammar with nothing in it.
    #[must_use]
    pub fn new() -> Self {
        Grammar::default()
    }

    /// Adds a plain class and answers its number.
    pub fn class(&mut self, least: u16, most: u16, ranges: &[(u32, u32)]) -> u16 {
        self.add(Class::Plain(PlainClass {
            least,
            most,
            ranges: ranges.to_vec(),
        }))
    }

    /// Adds an escaped class of a plain one and answers its number.
    pub fn escaped(&mut self, plain: u16) -> u16 {
        self.add(Class::Escaped(plain))
    }

    /// Adds a class of either kind and answers its number.
    pub fn add(&mut self, class: Class) -> u16 {
        self.classes.push(class);
        word(self.classes.len() - 1)
    }

    /// The plain class behind a class, with its number: of an escaped class the one that it names.
    #[must_use]
    pub fn plain(&self, class: u16) -> Option<(u16, &PlainClass)> {
        let number = match self.classes.get(usize::from(class))? {
            Class::Plain(_) => class,
            Class::Escaped(plain) => *plain,
        };
        match self.classes.get(usize::from(number))? {
            Class::Plain(plain) => Some((number, plain)),
            Class::Escaped(_) => None,
        }
    }

    /// The numbers of the plain classes.
    #[must_use]
    pub fn plain_classes(&self) -> Vec<u16> {
        let is_plain = |&number: &u16| matches!(self.classes[usize::from(number)], Class::Plain(_));
        (0..word(self.classes.len())).filter(is_plain).collect()
    }

    /// Adds a production of a nonterminal and answers the production's number.
    pub fn production(
        &mut self,
        nonterminal: u16,
        elements: impl IntoIterator<Item = Element>,
    ) -> u16 {
        self.productions.push(Production {
            nonterminal,
            elements: elements.into_iter().collect(),
        });
        word(self.productions.len() - 1)
    }

    /// The records in order. A production's number is a word, its low byte in a and its high byte in
    /// c. A class's is a byte: those over 255 are cut to one, and so refused by the machine.
    ///
    /// # Panics
    /// A count, a text's length or a production's number over 65,535.
    #[must_use]
    pub fn records(&self) -> Vec<Record> {
        let mut records = Vec::new();
        for (number, class) in self.classes.iter().enumerate() {
            push_class(&mut records, number as u8, class);
        }
        for (number, production) in self.productions.iter().enumerate() {
            push_production(&mut records, word(number), production);
        }
        records
    }

    /// The packed stream.
    ///
    /// # Panics
    /// A count, a text's length or a production's number over 65,535.
    #[must_use]
    pub fn stream(&self) -> Vec<u8> {
        blocks(GRAMMAR, &self.records())
    }
}

fn push_class(records: &mut Vec<Record>, number: u8, class: &Class) {
    match class {
        Class::Plain(class) => {
            let ranges = word(class.ranges.len());
            records.push(record(1, number, class.least, class.most, ranges));
            records.extend(class.ranges.iter().map(range));
        }
        Class::Escaped(plain) => records.push(record(5, number, *plain, 0, 0)),
    }
}

fn range(&(lowest, highest): &(u32, u32)) -> Record {
    let ([l0, l1, l2, _], [h0, h1, h2, _]) = (lowest.to_le_bytes(), highest.to_le_bytes());
    [2, l0, l1, l2, h0, h1, h2, 0]
}

fn push_production(records: &mut Vec<Record>, number: u16, production: &Production) {
    let [low, high] = number.to_le_bytes();
    let elements = word(production.elements.len());
    records.push(record(
        3,
        low,
        production.nonterminal,
        high.into(),
        elements,
    ));
    for element in &production.elements {
        push_element(records, element);
    }
}

fn push_element(records: &mut Vec<Record>, element: &Element) {
    match element {
        Element::Keyword(text) => {
            records.push(record(4, 0, word(text.len()), 0, 0));
            records.extend(text_units(text));
        }
        Element::Class(number) => records.push(record(4, 1, *number, 0, 0)),
        Element::Nonterminal(number) => records.push(record(4, 2, *number, 0, 0)),
        Element::Repetition(number) => records.push(record(4, 3, *number, 0, 0)),
        Element::Separated(number, separator) => {
            records.push(record(4, 4, *number, word(separator.len()), 0));
            records.extend(text_units(separator));
        }
    }
}

#[cfg(test)]
mod tests {
    use super::*;

    #[test]
    fn a_productions_number_is_a_word_and_a_classs_a_byte() {
        let mut grammar = Grammar::new();
        for number in 0..700 {
            grammar.class(0, 0, &[]);
            assert_eq!(grammar.production(7, []), number);
        }
        let records = grammar.records();
        let (classes, productions) = records.split_at(700);
        for (number, (class, production)) in classes.iter().zip(productions).enumerate() {
            let [low, high] = [number % 256, number / 256].map(|byte| byte as u8);
            assert_eq!(*class, [1, low, 0, 0, 0, 0, 0, 0]);
            assert_eq!(*production, [3, low, 7, 0, high, 0, 0, 0]);
        }
    }
}
