//! What the things of a set are called: by the names of its description where they are known, else by
//! their numbers.

use crate::assembly::sheet::{Origin, What};
use crate::words::named;
use std::collections::{BTreeMap, HashSet};

/// The names of a set's things. What isn't known is called by its number.
#[derive(Clone, Debug, Default, PartialEq, Eq)]
pub struct Names {
    /// The classes, by number.
    pub classes: Vec<String>,
    /// The productions, by number.
    pub productions: Vec<String>,
    /// The nonterminals, by number.
    pub nonterminals: Vec<String>,
    /// The types, by number.
    pub types: Vec<String>,
    /// The fields or the cases of each type, by number; other types than records and variants have none.
    pub fields: Vec<Vec<String>>,
    /// The templates, by number.
    pub templates: Vec<String>,
    /// The variables, by the record of the parameter or of the for that brings them in.
    pub variables: BTreeMap<usize, String>,
    /// The arms of matches, by the record of the arm's node.
    pub arms: BTreeMap<usize, Arm>,
    /// The paths as they are written, by their records.
    pub paths: BTreeMap<usize, String>,
}

/// The names of an arm.
#[derive(Clone, Debug, Default, PartialEq, Eq)]
pub struct Arm {
    /// The case that it is for.
    pub case: Option<String>,
    /// The variable that it brings in.
    pub content: Option<String>,
}

/// What brings a variable in, by a record of the templates.
#[derive(Clone, Copy, Debug, PartialEq, Eq)]
pub enum Binder {
    /// The parameter or the for at the record.
    Own(usize),
    /// The arm whose node is at the record.
    Arm(usize),
}

impl Names {
    /// The names that a grammar and templates have by their maps. A nonterminal has the number in the
    /// order of the first productions, as the assembler gives it.
    pub fn of(grammar: &[Origin], templates: &[Origin]) -> Self {
        let (mut names, mut known) = (Self::default(), HashSet::new());
        for origin in grammar {
            names.of_grammar(origin, &mut known);
        }
        for (index, origin) in templates.iter().enumerate() {
            names.of_templates(origin, index);
        }
        names
    }

    /// Classes come before productions; behind these a class's name is that of an element. The
    /// nonterminals met so far are known.
    fn of_grammar<'a>(&mut self, origin: &'a Origin, known: &mut HashSet<&'a str>) {
        match origin.names.as_slice() {
            [(What::Class, name)] if self.productions.is_empty() => self.classes.push(name.clone()),
            [(What::Production, name), (What::Nonterminal, of)] => {
                self.productions.push(name.clone());
                if known.insert(of) {
                    self.nonterminals.push(of.clone());
                }
            }
            _ => {}
        }
    }

    /// A case before the templates is one of a type, and else that of an arm, which may be a for as well.
    fn of_templates(&mut self, origin: &Origin, index: usize) {
        for (what, name) in &origin.names {
            let name = name.clone();
            match what {
                What::Type => {
                    self.types.push(name);
                    self.fields.push(Vec::new());
                }
                What::Field => self
                    .fields
                    .last_mut()
                    .into_iter()
                    .for_each(|it| it.push(name.clone())),
                What::Case if self.templates.is_empty() => {
                    self.fields
                        .last_mut()
                        .into_iter()
                        .for_each(|it| it.push(name.clone()));
                }
                What::Case => self.arms.entry(index).or_default().case = Some(name),
                What::Content => self.arms.entry(index).or_default().content = Some(name),
                What::Template => self.templates.push(name),
                What::Parameter | What::Loop => drop(self.variables.insert(index, name)),
                What::Path => drop(self.paths.insert(index, name)),
                What::Class | What::Production | What::Nonterminal => {}
            }
        }
    }

    /// A class.
    pub fn class(&self, number: u16) -> String {
        called(
            "class",
            usize::from(number),
            self.classes.get(usize::from(number)),
        )
    }

    /// A production.
    pub fn production(&self, number: u16) -> String {
        let name = self.productions.get(usize::from(number));
        called("production", usize::from(number), name)
    }

    /// A nonterminal.
    pub fn nonterminal(&self, number: u16) -> String {
        called(
            "nonterminal",
            usize::from(number),
            self.nonterminals.get(usize::from(number)),
        )
    }

    /// A type.
    pub fn type_of(&self, number: usize) -> String {
        called("type", number, self.types.get(number))
    }

    /// A field of a type.
    pub fn field(&self, of: usize, number: usize) -> String {
        let name = self.fields.get(of).and_then(|fields| fields.get(number));
        called("field", number, name)
    }

    /// A case of a type.
    pub fn case(&self, of: usize, number: usize) -> String {
        let name = self.fields.get(of).and_then(|cases| cases.get(number));
        called("case", number, name)
    }

    /// A template.
    pub fn template(&self, number: usize) -> String {
        called("template", number, self.templates.get(number))
    }

    /// A variable, by what brings it in.
    pub fn variable(&self, number: usize, binder: Binder) -> String {
        called("variable", number, self.variable_name(binder))
    }

    /// The name of a variable, if it is known.
    pub fn variable_name(&self, binder: Binder) -> Option<&String> {
        match binder {
            Binder::Own(record) => self.variables.get(&record),
            Binder::Arm(node) => self.arms.get(&node)?.content.as_ref(),
        }
    }

    /// The case of the arm whose node is at a record, which is the arm with this number.
    pub fn arm(&self, number: usize, node: usize) -> String {
        let name = self.arms.get(&node).and_then(|arm| arm.case.as_ref());
        called("case", number, name)
    }
}

/// ``class `title` ``, or `class 3` where the name isn't known.
fn called(what: &str, number: usize, name: Option<&String>) -> String {
    match name {
        Some(name) => format!("{what} {}", named(name)),
        None => format!("{what} {number}"),
    }
}

#[cfg(test)]
mod tests {
    use super::*;

    #[test]
    fn names_where_they_are_known() {
        let names = Names {
            classes: vec!["title".to_string()],
            fields: vec![Vec::new(), vec!["start".to_string()]],
            ..Names::default()
        };
        assert_eq!(names.class(0), "class `title`");
        assert_eq!(names.class(1), "class 1");
        assert_eq!(names.field(1, 0), "field `start`");
        assert_eq!(names.field(0, 0), "field 0");
        assert_eq!(names.variable(2, Binder::Own(7)), "variable 2");
        assert_eq!(names.variable(2, Binder::Arm(7)), "variable 2");
        assert_eq!(names.case(1, 0), "case `start`");
        assert_eq!(names.arm(3, 7), "case 3");
    }
}
