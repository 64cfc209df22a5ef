//! The productions of a description by their nonterminals.

use crate::language::description::{Description, Element, Production};
use std::collections::{HashMap, HashSet};

/// The productions, and which of them a nonterminal has.
pub struct Grammar<'a> {
    /// The productions, in their order.
    pub productions: &'a [Production],
    /// The nonterminals that have a production, in their order.
    pub nonterminals: Vec<&'a str>,
    numbers: HashMap<&'a str, Vec<usize>>,
    classes: HashSet<&'a str>,
    /// The nonterminal of the first template.
    first: Option<&'a str>,
}

impl<'a> Grammar<'a> {
    /// The productions of a description.
    pub fn of(tree: &'a Description) -> Self {
        let classes = tree.classes.iter().map(|it| it.name.word.as_str());
        let first = tree.templates.first();
        let mut grammar = Self {
            productions: &tree.productions,
            nonterminals: Vec::new(),
            numbers: HashMap::new(),
            classes: classes.collect(),
            first: first.map(|it| it.nonterminal.word.as_str()),
        };
        for (number, production) in tree.productions.iter().enumerate() {
            let name = production.nonterminal.word.as_str();
            let numbers = grammar.numbers.entry(name).or_default();
            if numbers.is_empty() {
                grammar.nonterminals.push(name);
            }
            numbers.push(number);
        }
        grammar
    }

    /// The numbers of a nonterminal's productions.
    pub fn productions_of(&self, nonterminal: &str) -> &[usize] {
        self.numbers.get(nonterminal).map_or(&[], Vec::as_slice)
    }

    /// The nonterminal that an element names, if it has a production. Of a class and a nonterminal with
    /// one name it is the class that stands there once, and the nonterminal that is repeated.
    pub fn used(&self, element: &Element) -> Option<&'a str> {
        let name = match element {
            Element::Keyword(_) => return None,
            Element::One(name) if self.is_class(&name.word) => return None,
            Element::One(name) | Element::Many(name, _) => name.word.as_str(),
        };
        self.numbers.get_key_value(name).map(|(&name, _)| name)
    }

    /// Whether a class has the name.
    pub fn is_class(&self, name: &str) -> bool {
        self.classes.contains(name)
    }

    /// The nonterminals that a text may begin with: that of the first template, and each that no other
    /// one uses.
    pub fn starts(&self) -> Vec<&'a str> {
        let mut used = HashSet::new();
        for production in self.productions {
            let own = production.nonterminal.word.as_str();
            let names = production.elements.iter().filter_map(|it| self.used(it));
            used.extend(names.filter(|&name| name != own));
        }
        let nonterminals = self.nonterminals.iter().copied();
        let unused = nonterminals.filter(|name| !used.contains(name));
        self.first.into_iter().chain(unused).collect()
    }
}

#[cfg(test)]
mod tests {
    use super::*;
    use crate::language::parser::parse;

    #[test]
    fn nonterminals_and_their_uses() {
        let tree = parse(
            "class c 0 to 9 { 'a' } production p of p = \"a\" q c c* x production q of q = r\n\
             production s of q = p* production r of r = q production c of c = s production l of l = l",
        )
        .expect("a description");
        let grammar = Grammar::of(&tree);
        assert_eq!(grammar.nonterminals, ["p", "q", "r", "c", "l"]);
        assert_eq!(grammar.productions_of("q"), [1, 2]);
        assert!(grammar.productions_of("x").is_empty());
        let elements = &tree.productions[0].elements;
        let used: Vec<_> = elements.iter().map(|it| grammar.used(it)).collect();
        assert_eq!(used, [None, Some("q"), None, Some("c"), None]);
        assert_eq!(grammar.starts(), ["l"]);
    }

    #[test]
    fn the_first_templates_nonterminal_is_a_start() {
        let tree = parse(
            "production p of p = q production q of q = p\n\
             template main (v: v) of q = build q () template other () of p = build p ()",
        )
        .expect("a description");
        assert_eq!(Grammar::of(&tree).starts(), ["q"]);
    }
}
