//! Plain classes that admit `&` or `<` where the keywords around them are markup.
//!
//! Whatever is typed in such a place may break the page, or add to it what its writer didn't mean. The
//! cure is the escaped form of the class. The keywords may be in other productions than the class: which
//! places there are is found in `flow.rs`.

use super::admits::{Classes, Plain};
use super::behind::{Behind, Following};
use super::flow::{Place, Places};
use super::grammar::Grammar;
use super::inside::{Inside, Reader};
use super::through::Through;
use crate::language::description::{Class, ClassForm, Description, Element, Production};
use crate::mistake::Mistake;
use crate::words::{self, cut, named, visible};
use std::collections::HashMap;
use std::rc::Rc;

/// So many characters of what stands around a class are shown.
const SHOWN: usize = 40;

/// What is said of the productions' elements.
pub fn markup(tree: &Description) -> Vec<Mistake> {
    let rule = Rule {
        classes: Classes::of(tree),
        escaped: escaped_forms(&tree.classes),
        productions: &tree.productions,
    };
    let grammar = Grammar::of(tree);
    let through = Through::of(&grammar);
    let places = Places::of(&grammar, &through);
    let each = tree.productions.iter().enumerate();
    each.flat_map(|(number, production)| {
        let of_production = places.get(&production.nonterminal.word);
        rule.production(number, of_production, &through)
    })
    .collect()
}

/// The first escaped form of each class that has one.
fn escaped_forms(classes: &[Class]) -> HashMap<&str, &str> {
    let mut found = HashMap::new();
    for class in classes {
        if let ClassForm::Escaped(plain) = &class.form {
            found
                .entry(plain.word.as_str())
                .or_insert(class.name.word.as_str());
        }
    }
    found
}

struct Rule<'a> {
    classes: Classes<'a>,
    escaped: HashMap<&'a str, &'a str>,
    productions: &'a [Production],
}

/// A production that is read, and what is known of the nonterminals that it uses.
struct Read<'a> {
    production: usize,
    elements: &'a [Element],
    behind: Vec<Behind>,
    through: &'a Through<'a>,
}

/// What is around a class: what has been read, what comes next, and where the production stands.
struct Around<'a> {
    read: &'a Read<'a>,
    reader: &'a Reader,
    rest: &'a [Element],
    place: &'a Place,
}

impl Rule<'_> {
    /// What is said of a production's elements, at most one thing of each. The production is read by
    /// itself first, and then in each place where its text stands: what it shows itself is the plainest
    /// to say.
    fn production(
        &self,
        production: usize,
        places: &[Rc<Place>],
        through: &Through<'_>,
    ) -> Vec<Mistake> {
        let elements = self.productions[production].elements.as_slice();
        let read = |through| Read {
            production,
            elements,
            behind: Behind::all(elements, through),
            through,
        };
        let (mut found, nothing) = (vec![None; elements.len()], Through::default());
        self.read(&read(&nothing), &Place::alone(), &mut found);
        let read = read(through);
        for place in places {
            self.read(&read, place, &mut found);
        }
        found.into_iter().flatten().collect()
    }

    /// Reads a production in a place, and adds what is said of its elements of which nothing is said yet.
    fn read(&self, read: &Read<'_>, place: &Place, found: &mut [Option<Mistake>]) {
        let mut reader = place.reader.enter(read.production);
        for (number, element) in read.elements.iter().enumerate() {
            let behind = read.behind[number].then(place.behind);
            if found[number].is_none() && is_markup(reader.inside(), behind) {
                let around = Around {
                    read,
                    reader: &reader,
                    rest: &read.elements[number + 1..],
                    place,
                };
                found[number] = self.element(element, &around);
            }
            read.through.pass(&mut reader, element);
        }
    }

    /// What is said of an element that stands in markup, if it is a class that admits a character that is
    /// dangerous there.
    fn element(&self, element: &Element, around: &Around<'_>) -> Option<Mistake> {
        let Element::One(name) = element else {
            return None;
        };
        let inside = around.reader.inside();
        let plain = self.classes.plain(&name.word)?;
        let characters = dangers(inside, plain);
        if characters.is_empty() {
            return None;
        }
        let message = format!(
            "class {} admits {} here, {}, {}",
            named(&name.word),
            in_a_row(&characters),
            self.between(around),
            self.why_and_cure(inside, &name.word, &characters)
        );
        Some(Mistake::new(name.at, message))
    }

    /// What a class stands between, and in which productions that is, if it isn't in the class's own.
    fn between(&self, around: &Around<'_>) -> String {
        let own = around.read.production;
        let mut following = Following::default();
        following.elements(around.rest, own, around.read.through);
        following.further(&around.place.following);
        let (after, ended) = following.until(end_of(around.reader.inside()));
        let (begun, ended) = (around.reader.begun(), ended.unwrap_or(own));
        let (before, after) = (shown(around.reader.shown()), shown(&after));
        let called = |production: usize| named(&self.productions[production].name.word);
        if begun == ended && begun != own {
            let user = called(begun);
            return format!("where production {user} has it between `{before}` and `{after}`");
        }
        let side = |text: &str, production: usize| match production == own {
            true => format!("`{text}`"),
            false => format!("the `{text}` of production {}", called(production)),
        };
        format!(
            "between {} and {}",
            side(&before, begun),
            side(&after, ended)
        )
    }

    /// Why the characters are dangerous, and what helps. In a tag outside its values no entity may stand.
    fn why_and_cure(&self, inside: Inside, class: &str, characters: &[String]) -> String {
        let why = why(inside, characters);
        if inside == Inside::Tag {
            let them = if characters.len() == 1 { "it" } else { "them" };
            return format!(
                "{why}, and in a tag outside its values so would an escaped form: \
                 leave {them} out of the class's ranges"
            );
        }
        match self.escaped.get(class) {
            Some(escaped) => format!("{why}: ask for its escaped form {}", named(escaped)),
            None => {
                let cure = words::shown(&format!("class NAME = escaped {class}"), 2 * SHOWN);
                format!("{why}: ask for an escaped form of it ({cure})")
            }
        }
    }
}

/// What dangerous characters would do. The quote that ends a value is the last of them.
fn why(inside: Inside, characters: &[String]) -> String {
    let quote = match inside {
        Inside::Value(quote) => char::from(quote).to_string(),
        _ => String::new(),
    };
    match characters {
        [only] if *only == quote => "where it would end the value".to_string(),
        [others @ .., last] if *last == quote => format!(
            "where {} would be read as markup and `{last}` would end the value",
            in_a_row(others)
        ),
        [_] => "where it would be read as markup".to_string(),
        _ => "where they would be read as markup".to_string(),
    }
}

/// Whether an element stands between keywords of markup. That it is in a tag is shown by what is before
/// it; a `>` alone may also be an arrow, and is taken for a tag's end only where a tag follows.
fn is_markup(inside: Inside, behind: Behind) -> bool {
    match inside {
        Inside::Content => behind.tag(),
        Inside::Tag | Inside::Value(_) => behind.keyword,
        Inside::Unknown | Inside::Opened | Inside::Raw(_) => false,
    }
}

/// The characters that a class admits and that would not stay text there.
fn dangers(inside: Inside, plain: Plain<'_>) -> Vec<String> {
    let third = match inside {
        Inside::Value(quote) => Some(char::from(quote)),
        Inside::Tag => Some('>'),
        _ => None,
    };
    ['&', '<']
        .into_iter()
        .chain(third)
        .filter(|&character| plain.admits(character))
        .map(String::from)
        .collect()
}

/// What ends the place that a class stands in, or the tag behind that place.
fn end_of(inside: Inside) -> u8 {
    match inside {
        Inside::Value(quote) => quote,
        _ => b'>',
    }
}

/// A piece of markup in one line that isn't long.
fn shown(bytes: &[u8]) -> String {
    let text = String::from_utf8_lossy(bytes);
    let words: Vec<&str> = text.split_whitespace().collect();
    cut(&words.join(" "), SHOWN).chars().map(visible).collect()
}

/// `` `a` ``, `` `a` and `b` ``, `` `a`, `b` and `c` ``.
fn in_a_row(characters: &[String]) -> String {
    let each: Vec<String> = characters.iter().map(|it| format!("`{it}`")).collect();
    match each.as_slice() {
        [before @ .., last] if !before.is_empty() => format!("{} and {last}", before.join(", ")),
        all => all.concat(),
    }
}

#[cfg(test)]
mod across_tests;
#[cfg(test)]
mod tests;
