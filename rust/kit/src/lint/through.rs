//! What the text of a nonterminal does to the markup around it, wherever that is certain.
//!
//! It may begin with a tag, which ends the text before it, and behind it the text may be in the middle
//! of something else than before. That is certain if all productions of the nonterminal agree. Nothing is
//! said of a nonterminal that leads to itself, nor of a repetition, which may have no item at all.

use super::behind::{Behind, Following};
use super::grammar::Grammar;
use super::inside::{Reader, State, STATES};
use crate::language::description::Element;
use std::collections::HashMap;

/// What the texts of the nonterminals do. By default nothing is known.
#[derive(Default)]
pub struct Through<'a>(HashMap<&'a str, Passage>);

/// What the texts of a nonterminal have in common.
struct Passage {
    /// What they show to a text before them.
    front: Behind,
    /// How they begin, if that is with a tag.
    begins: Option<Following>,
    /// The reader behind them by the state before them, where that isn't the state behind them.
    exits: HashMap<State, Reader>,
}

impl<'a> Through<'a> {
    /// What the nonterminals of a description do: first those that use no other one, then those of which
    /// all is known that they use.
    pub fn of(grammar: &Grammar<'a>) -> Self {
        let mut through = Self::default();
        let (mut pending, users) = uses(grammar);
        let mut next = grammar.nonterminals.clone();
        next.retain(|name| !pending.contains_key(name));
        while let Some(name) = next.pop() {
            // Where a class has the name as well, an element with it is the class.
            if !grammar.is_class(name) {
                let passage = through.passage(grammar, grammar.productions_of(name));
                through.0.insert(name, passage);
            }
            for &user in users.get(name).into_iter().flatten() {
                if let Some(count) = pending.get_mut(user) {
                    *count -= 1;
                    if *count == 0 {
                        next.push(user);
                    }
                }
            }
        }
        through
    }

    /// What a nonterminal with these productions does.
    fn passage(&self, grammar: &Grammar<'_>, productions: &[usize]) -> Passage {
        let elements = |number: usize| grammar.productions[number].elements.as_slice();
        let fronts = productions.iter().map(|&it| self.front(elements(it)));
        let front = fronts.reduce(Behind::common).unwrap_or_default();
        let begins = productions.first().filter(|_| front.tag()).map(|&it| {
            let mut begins = Following::default();
            begins.elements(elements(it), it, self);
            begins
        });
        let mut exits = HashMap::new();
        for state in STATES {
            let ends = productions
                .iter()
                .map(|&it| self.end(elements(it), Reader::within(state).enter(it)));
            exits.extend(common_end(ends, state).map(|end| (state, end)));
        }
        Passage {
            front,
            begins,
            exits,
        }
    }

    /// What elements show to a text before them.
    fn front(&self, elements: &[Element]) -> Behind {
        let each = elements.iter().rev();
        let all = each.fold(Behind::default(), |behind, element| {
            self.behind(element).then(behind)
        });
        all.certain()
    }

    /// The reader behind elements.
    fn end(&self, elements: &[Element], mut reader: Reader) -> Reader {
        for element in elements {
            self.pass(&mut reader, element);
        }
        reader
    }

    /// What an element shows to a text before it.
    pub fn behind(&self, element: &Element) -> Behind {
        match element {
            Element::Keyword(text) => Behind::at(&text.bytes),
            Element::One(name) => self.front_of(&name.word),
            Element::Many(..) => Behind::default(),
        }
    }

    /// What a nonterminal shows to a text before it.
    pub fn front_of(&self, nonterminal: &str) -> Behind {
        let passage = self.0.get(nonterminal);
        passage.map_or(Behind::default(), |passage| passage.front)
    }

    /// How a nonterminal begins, if that is with a tag.
    pub fn begins(&self, nonterminal: &str) -> Option<&Following> {
        self.0.get(nonterminal)?.begins.as_ref()
    }

    /// Goes on behind an element.
    pub fn pass(&self, reader: &mut Reader, element: &Element) {
        match element {
            Element::Keyword(text) => reader.keyword(&text.bytes),
            Element::One(name) => self.pass_one(reader, &name.word),
            Element::Many(..) => reader.other(),
        }
    }

    /// Goes on behind a nonterminal or a class.
    pub fn pass_one(&self, reader: &mut Reader, name: &str) {
        let passage = self.0.get(name);
        match passage.and_then(|passage| passage.exits.get(&reader.state())) {
            Some(exit) => reader.leave(exit),
            None => reader.other(),
        }
    }
}

/// The first of a nonterminal's ends, if all of them agree, none is doubtful, and they aren't as before.
fn common_end(mut ends: impl Iterator<Item = Reader>, before: State) -> Option<Reader> {
    let first = ends.next()?;
    let is_certain = first.state() != before && !first.is_doubtful();
    let agrees = |end: Reader| end.state() == first.state() && !end.is_doubtful();
    (is_certain && ends.all(agrees)).then_some(first)
}

/// How often each nonterminal uses others, and which use it, as often as they do.
fn uses<'a>(grammar: &Grammar<'a>) -> (HashMap<&'a str, usize>, HashMap<&'a str, Vec<&'a str>>) {
    let (mut counts, mut users) = (HashMap::new(), HashMap::<_, Vec<_>>::new());
    for production in grammar.productions {
        let user = production.nonterminal.word.as_str();
        let once = production
            .elements
            .iter()
            .filter(|it| matches!(it, Element::One(_)));
        for used in once.filter_map(|it| grammar.used(it)) {
            *counts.entry(user).or_default() += 1;
            users.entry(used).or_default().push(user);
        }
    }
    (counts, users)
}

#[cfg(test)]
mod tests {
    use super::super::inside::Inside;
    use super::*;
    use crate::language::parser::parse;

    /// What a text is in the middle of behind a nonterminal `n` with these productions, if it was in the
    /// middle of something before, and whether a tag begins with it.
    fn passed(state: State, productions: &[&str]) -> (Inside, bool) {
        let mut text = String::from("class c 0 to 9 { 'a'-'z' } production o of o = \"<o>\" c\n");
        for (number, elements) in productions.iter().enumerate() {
            text.push_str(&format!("production p{number} of n = {elements}\n"));
        }
        let tree = parse(&text).expect("a description");
        let through = Through::of(&Grammar::of(&tree));
        let mut reader = Reader::within(state);
        through.pass_one(&mut reader, "n");
        (reader.inside(), through.front_of("n").tag())
    }

    const UNKNOWN: State = (Inside::Unknown, Inside::Unknown);
    const TAG: State = (Inside::Tag, Inside::Unknown);

    #[test]
    fn productions_that_agree() {
        use Inside::{Content, Raw, Unknown, Value};
        for (state, productions, passed_so) in [
            (UNKNOWN, &["\"<a>\" c"][..], (Content, true)),
            (UNKNOWN, &["\"<a>\"", "c \"</a>\" n*"], (Content, true)),
            (UNKNOWN, &["o"], (Content, true)),
            (UNKNOWN, &["\"<!--\""], (Raw(b"-->"), true)),
            (UNKNOWN, &["c \", \" c"], (Unknown, false)),
            (TAG, &["\">\"", "\" b='\" c \"'>\""], (Content, false)),
            (TAG, &["\" b='\" c"], (Value(b'\''), false)),
            (TAG, &["c \">\""], (Content, false)),
        ] {
            assert_eq!(passed(state, productions), passed_so, "{productions:?}");
        }
    }

    #[test]
    fn what_is_not_certain() {
        use Inside::{Tag, Unknown};
        for (state, productions, passed_so) in [
            (UNKNOWN, &["\"<a>\"", ""][..], (Unknown, false)),
            (UNKNOWN, &["\"<a>\"", "\"a\""], (Unknown, false)),
            (UNKNOWN, &["o*"], (Unknown, false)),
            (UNKNOWN, &["\"<a>\" n"], (Unknown, false)),
            (UNKNOWN, &["\"<\" c \">\""], (Unknown, false)),
            (UNKNOWN, &["\"<a>\"", "\"<\" c \">\""], (Unknown, false)),
            (TAG, &["\">\"", "\" b='\" c \"'\""], (Tag, false)),
            (UNKNOWN, &[], (Unknown, false)),
        ] {
            assert_eq!(passed(state, productions), passed_so, "{productions:?}");
        }
    }
}
