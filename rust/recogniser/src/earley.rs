//! Earley's method, with counted classes, repetitions with separators and empty derivations.

use std::collections::{HashMap, HashSet};

use crate::grammar::{Element, Grammar};

/// A production with a dot: before element `element` or, by `count`, inside it, and begun at byte
/// `origin`. Of a class `count` characters are read; of a repetition it is where the dot stands.
#[derive(Clone, Copy, Debug, PartialEq, Eq, Hash)]
struct Item {
    production: usize,
    element: usize,
    count: u32,
    origin: usize,
}

/// Where the dot stands in a repetition that has begun; 0 is before all of it.
const BEHIND_ITEM: u32 = 1;
const BEHIND_SEPARATOR: u32 = 2;

impl Item {
    /// The dot elsewhere in the same element.
    fn with(self, count: u32) -> Item {
        Item { count, ..self }
    }

    /// The dot behind the element.
    fn advanced(self) -> Item {
        Item {
            element: self.element + 1,
            count: 0,
            ..self
        }
    }
}

/// What is known at one byte of the text.
#[derive(Default)]
struct Set {
    items: Vec<Item>,
    seen: HashSet<Item>,
    /// What each item that asks for a nonterminal becomes once it is there.
    waiting: HashMap<u16, Vec<Item>>,
    /// Nonterminals that derive the bytes from a place to here.
    derived: HashSet<(u16, usize)>,
}

impl Set {
    fn add(&mut self, item: Item) {
        if self.seen.insert(item) {
            self.items.push(item);
        }
    }
}

/// One run over a text.
pub(crate) struct Run<'a> {
    grammar: &'a Grammar,
    text: &'a [u8],
    sets: Vec<Set>,
    budget: usize,
}

impl<'a> Run<'a> {
    pub(crate) fn new(grammar: &'a Grammar, text: &'a [u8], budget: usize) -> Self {
        let sets = (0..=text.len()).map(|_| Set::default()).collect();
        Run {
            grammar,
            text,
            sets,
            budget,
        }
    }

    /// Whether the nonterminal derives the whole text; `None` past the budget.
    pub(crate) fn derives(mut self, nonterminal: u16) -> Option<bool> {
        self.predict(nonterminal, 0);
        for at in 0..=self.text.len() {
            let mut next = 0;
            while let Some(&item) = self.sets[at].items.get(next) {
                self.budget = self.budget.checked_sub(1)?;
                self.step(item, at);
                next += 1;
            }
        }
        let whole = |item: &Item| {
            let production = &self.grammar.productions[item.production];
            item.origin == 0
                && production.nonterminal == nonterminal
                && item.element == production.elements.len()
        };
        Some(self.sets[self.text.len()].items.iter().any(whole))
    }

    fn step(&mut self, item: Item, at: usize) {
        let grammar = self.grammar;
        let production = &grammar.productions[item.production];
        match production.elements.get(item.element) {
            None => self.complete(production.nonterminal, item.origin, at),
            Some(Element::Keyword(text)) => {
                if self.text[at..].starts_with(text) {
                    self.sets[at + text.len()].add(item.advanced());
                }
            }
            Some(Element::Class(class)) => self.read_character(item, *class, at),
            Some(Element::Nonterminal(n)) => self.ask(*n, item.advanced(), at),
            Some(Element::Repetition(n, separator)) => self.repeat(item, *n, separator, at),
        }
    }

    /// A repetition ends here, unless a separator stands right before, or goes on: with an item at
    /// its beginning and behind a separator, with a separator behind an item.
    fn repeat(&mut self, item: Item, nonterminal: u16, separator: &[u8], at: usize) {
        if item.count != BEHIND_SEPARATOR {
            self.sets[at].add(item.advanced());
        }
        if item.count != BEHIND_ITEM {
            self.ask(nonterminal, item.with(BEHIND_ITEM), at);
        } else if self.text[at..].starts_with(separator) {
            self.sets[at + separator.len()].add(item.with(BEHIND_SEPARATOR));
        }
    }

    /// A class ends here, or takes one more character.
    fn read_character(&mut self, item: Item, class: usize, at: usize) {
        let Some(class) = self.grammar.classes.get(class) else {
            return;
        };
        if class.may_end(item.count) {
            self.sets[at].add(item.advanced());
        }
        if item.count < class.most {
            if let Some(length) = class.character(&self.text[at..]) {
                self.sets[at + length].add(item.with(item.count + 1));
            }
        }
    }

    /// Asks for a nonterminal here, behind which `then` goes on. A nonterminal may have thousands of
    /// productions: the first that asks lets them begin.
    fn ask(&mut self, nonterminal: u16, then: Item, at: usize) {
        let set = &mut self.sets[at];
        if set.derived.contains(&(nonterminal, at)) {
            set.add(then);
        }
        let waiting = set.waiting.entry(nonterminal).or_default();
        waiting.push(then);
        if waiting.len() == 1 {
            self.predict(nonterminal, at);
        }
    }

    /// Lets the productions of a nonterminal begin here, but for those that begin with a keyword which
    /// the text hasn't here.
    fn predict(&mut self, nonterminal: u16, at: usize) {
        let grammar = self.grammar;
        let productions = grammar.by_nonterminal.get(&nonterminal);
        for &production in productions.into_iter().flatten() {
            let first = grammar.productions[production].elements.first();
            if matches!(first, Some(Element::Keyword(text)) if !self.text[at..].starts_with(text)) {
                continue;
            }
            self.sets[at].add(Item {
                production,
                element: 0,
                count: 0,
                origin: at,
            });
        }
    }

    /// A nonterminal derives the bytes from `origin` to here: who waited there goes on here, once.
    /// (Who asks for it later, at its origin, finds it derived.)
    fn complete(&mut self, nonterminal: u16, origin: usize, at: usize) {
        if !self.sets[at].derived.insert((nonterminal, origin)) {
            return;
        }
        let waiting = self.sets[origin].waiting.get(&nonterminal);
        for item in waiting.cloned().unwrap_or_default() {
            self.sets[at].add(item);
        }
    }
}
