//! In which places the texts of nonterminals stand: what is before and behind them.
//!
//! The keywords around a text may be in another production than the text itself, and in yet another than
//! its neighbour. So what the text is in the middle of goes from each use of a nonterminal into its
//! productions, until nothing is new. There are few states that a place may be in, and of the places
//! with the same state only the first is kept.

use super::behind::{Behind, Following};
use super::grammar::Grammar;
use super::inside::{Reader, State};
use super::through::Through;
use crate::language::description::Element;
use std::collections::{HashMap, HashSet, VecDeque};
use std::rc::Rc;

/// A place in which the texts of a nonterminal stand.
pub struct Place {
    /// What has been read before them.
    pub reader: Reader,
    /// What is behind them, all in all.
    pub behind: Behind,
    /// The beginning of what is behind them.
    pub following: Following,
}

impl Place {
    /// The place of a text of which nothing is known.
    pub fn alone() -> Self {
        Self {
            reader: Reader::new(),
            behind: Behind::default().settled(),
            following: Following::default(),
        }
    }
}

/// The places of each nonterminal, in the order in which they are found: the nearest to the start first.
pub struct Places<'a>(HashMap<&'a str, Vec<Rc<Place>>>);

impl<'a> Places<'a> {
    /// The places of the nonterminals of a description.
    pub fn of(grammar: &Grammar<'a>, through: &Through<'a>) -> Self {
        let mut flow = Flow::of(grammar, through);
        for start in grammar.starts() {
            flow.add(start, Place::alone());
        }
        while let Some((nonterminal, place)) = flow.next.pop_front() {
            for &production in grammar.productions_of(nonterminal) {
                flow.production(production, &place);
            }
        }
        Self(flow.places)
    }

    /// The places of a nonterminal.
    pub fn get(&self, nonterminal: &str) -> &[Rc<Place>] {
        self.0.get(nonterminal).map_or(&[], Vec::as_slice)
    }
}

/// A use of a nonterminal.
#[derive(Clone, Copy)]
struct Use<'u, 'a> {
    nonterminal: &'a str,
    reader: &'u Reader,
    behind: Behind,
    /// The separator, if another item comes next.
    separator: Option<&'u [u8]>,
    /// The production that uses it, and the elements that come next.
    production: usize,
    rest: &'u [Element],
    /// Where that production stands itself.
    place: &'u Place,
}

struct Flow<'g, 'a> {
    grammar: &'g Grammar<'a>,
    through: &'g Through<'a>,
    /// What is behind each element of each production.
    behind: Vec<Vec<Behind>>,
    places: HashMap<&'a str, Vec<Rc<Place>>>,
    known: HashSet<(&'a str, State, Behind)>,
    /// The places that aren't carried on yet.
    next: VecDeque<(&'a str, Rc<Place>)>,
}

impl<'g, 'a> Flow<'g, 'a> {
    fn of(grammar: &'g Grammar<'a>, through: &'g Through<'a>) -> Self {
        let each = grammar.productions.iter();
        Self {
            grammar,
            through,
            behind: each.map(|it| Behind::all(&it.elements, through)).collect(),
            places: HashMap::new(),
            known: HashSet::new(),
            next: VecDeque::new(),
        }
    }

    /// Carries a place into what a production uses.
    fn production(&mut self, production: usize, place: &Place) {
        let elements = &self.grammar.productions[production].elements;
        let mut reader = place.reader.enter(production);
        for (number, element) in elements.iter().enumerate() {
            if let Some(nonterminal) = self.grammar.used(element) {
                let behind = self.behind[production][number].then(place.behind);
                let used = Use {
                    nonterminal,
                    reader: &reader,
                    behind: behind.settled(),
                    separator: None,
                    production,
                    rest: &elements[number + 1..],
                    place,
                };
                match element {
                    Element::Many(_, None) => self.repeated(used, b""),
                    Element::Many(_, Some(separator)) => self.repeated(used, &separator.bytes),
                    _ => self.used(used),
                }
            }
            self.through.pass(&mut reader, element);
        }
    }

    /// Carries the places of a repetition's items on. Each is the first or behind another, and the last
    /// or before another, with the separator between them.
    fn repeated(&mut self, only: Use<'_, 'a>, separator: &[u8]) {
        let name = only.nonterminal;
        let mut reader = only.reader.clone();
        self.through.pass_one(&mut reader, name);
        reader.keyword(separator);
        let last = Use {
            reader: &reader,
            ..only
        };
        let another = Behind::at(separator).then(self.through.front_of(name));
        let behind = another.then(only.behind).settled();
        self.used(only);
        for before_another in [only, last] {
            self.used(Use {
                behind,
                separator: Some(separator),
                ..before_another
            });
        }
        self.used(last);
    }

    /// Adds the place of a use, if it is new. What may be no markup isn't carried on.
    fn used(&mut self, used: Use<'_, 'a>) {
        let nonterminal = used.nonterminal;
        let unknown = Reader::new();
        let reader = match used.reader.is_doubtful() {
            true => &unknown,
            false => used.reader,
        };
        let key = (nonterminal, reader.state(), used.behind);
        if self.known.contains(&key) {
            return;
        }
        let mut following = Following::default();
        if let Some(separator) = used.separator {
            following.keyword(separator, used.production);
            following.one(nonterminal, used.production, self.through);
        }
        following.elements(used.rest, used.production, self.through);
        following.further(&used.place.following);
        let place = Place {
            reader: reader.clone(),
            behind: used.behind,
            following,
        };
        self.add(nonterminal, place);
    }

    fn add(&mut self, nonterminal: &'a str, place: Place) {
        let key = (nonterminal, place.reader.state(), place.behind);
        if self.known.insert(key) {
            let place = Rc::new(place);
            let places = self.places.entry(nonterminal).or_default();
            places.push(Rc::clone(&place));
            self.next.push_back((nonterminal, place));
        }
    }
}
