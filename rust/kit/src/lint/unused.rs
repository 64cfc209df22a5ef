//! Productions and templates that no text ever comes from, and classes and types that nothing names.
//!
//! A text begins at the first template. What its builds and expands don't lead to is never written,
//! though something else that is never written may name it.

use crate::language::description::{
    ClassForm, Description, Element, Name, Node, NodeForm, Template, TypeForm,
};
use crate::mistake::Mistake;
use crate::words::{listed, named};
use std::collections::{HashMap, HashSet};

/// What is said of the four rows.
pub fn unused(tree: &Description) -> Vec<Mistake> {
    let users = Users::of(&tree.templates);
    let reached = users.reached(&tree.templates);
    let mut found = Vec::new();
    for production in &tree.productions {
        let by = users.builds.get(production.name.word.as_str());
        let said = Said::of("production", &production.name, ["builds", "build"]);
        found.extend(said.unless_reached(by, &reached, &tree.templates));
    }
    for template in tree.templates.iter().skip(1) {
        let by = users.expands.get(template.name.word.as_str());
        let said = Said::of("template", &template.name, ["expands", "expand"]);
        found.extend(said.unless_reached(by, &reached, &tree.templates));
    }
    found.extend(unused_classes(tree));
    found.extend(unused_types(tree));
    found
}

/// Which templates name a production or a template, by its name; each is there once, in its order.
#[derive(Default)]
struct Users<'a> {
    builds: HashMap<&'a str, Vec<usize>>,
    expands: HashMap<&'a str, Vec<usize>>,
}

impl<'a> Users<'a> {
    fn of(templates: &'a [Template]) -> Self {
        let mut users = Self::default();
        for (number, template) in templates.iter().enumerate() {
            users.node(number, &template.body);
        }
        users
    }

    fn node(&mut self, template: usize, node: &'a Node) {
        match &node.form {
            NodeForm::Build(production, children) => {
                add(&mut self.builds, production, template);
                children.iter().for_each(|it| self.node(template, it));
            }
            NodeForm::Expand(other, _) => add(&mut self.expands, other, template),
            NodeForm::If(_, yes, no) => {
                self.node(template, yes);
                self.node(template, no);
            }
            NodeForm::For(_, _, body) => self.node(template, body),
            NodeForm::Sequence(items) => items.iter().for_each(|it| self.node(template, it)),
            NodeForm::Match(_, arms) => arms.iter().for_each(|it| self.node(template, &it.node)),
            NodeForm::Literal(_) | NodeForm::Place(_) => {}
        }
    }

    /// Which templates the first one leads to, itself among them.
    fn reached(&self, templates: &[Template]) -> Vec<bool> {
        let mut leads = vec![Vec::new(); templates.len()];
        for (number, template) in templates.iter().enumerate() {
            let users = self.expands.get(template.name.word.as_str());
            for &user in users.into_iter().flatten() {
                leads[user].push(number);
            }
        }
        let mut reached = vec![false; templates.len()];
        let mut next: Vec<usize> = (0..templates.len().min(1)).collect();
        while let Some(number) = next.pop() {
            if !std::mem::replace(&mut reached[number], true) {
                next.extend(&leads[number]);
            }
        }
        reached
    }
}

fn add<'a>(users: &mut HashMap<&'a str, Vec<usize>>, name: &'a Name, template: usize) {
    let of_name = users.entry(&name.word).or_default();
    if of_name.last() != Some(&template) {
        of_name.push(template);
    }
}

/// Something that may turn out to be of no use, and what a template does that uses it.
struct Said<'a> {
    what: &'static str,
    name: &'a Name,
    verbs: [&'static str; 2],
}

impl<'a> Said<'a> {
    fn of(what: &'static str, name: &'a Name, verbs: [&'static str; 2]) -> Self {
        Self { what, name, verbs }
    }

    /// Says that the first template doesn't lead to it, and which templates name it all the same.
    fn unless_reached(
        &self,
        users: Option<&Vec<usize>>,
        reached: &[bool],
        templates: &[Template],
    ) -> Option<Mistake> {
        let users = users.map_or(&[][..], Vec::as_slice);
        if users.iter().any(|&user| reached[user]) {
            return None;
        }
        let named = users.iter().map(|&user| templates[user].name.word.as_str());
        let others: Vec<&str> = named
            .filter(|&user| self.what != "template" || user != self.name.word)
            .collect();
        Some(not_used(
            self.what,
            self.name,
            &self.why(users.len(), &others),
        ))
    }

    fn why(&self, users: usize, others: &[&str]) -> String {
        let [builds, build] = self.verbs;
        match others {
            [] if users == 0 => format!("no template {builds} it"),
            [] => format!("only it {builds} itself"),
            [only] => format!(
                "only template {} {builds} it, which is not used itself",
                named(only)
            ),
            several => format!(
                "only templates {} {build} it, which are not used themselves",
                listed(&several.iter().map(|it| named(it)).collect::<Vec<_>>())
            ),
        }
    }
}

fn not_used(what: &str, name: &Name, why: &str) -> Mistake {
    Mistake::new(
        name.at,
        format!("{what} {} is not used: {why}", named(&name.word)),
    )
}

fn unused_classes(tree: &Description) -> Vec<Mistake> {
    let mut named: HashSet<&str> = HashSet::new();
    let elements = tree.productions.iter().flat_map(|it| &it.elements);
    named.extend(elements.filter_map(|element| match element {
        Element::One(name) => Some(name.word.as_str()),
        Element::Keyword(_) | Element::Many(..) => None,
    }));
    named.extend(tree.types.iter().filter_map(|it| match &it.form {
        TypeForm::Text(class) => Some(class.word.as_str()),
        _ => None,
    }));
    named.extend(tree.classes.iter().filter_map(|class| match &class.form {
        ClassForm::Escaped(plain) => Some(plain.word.as_str()),
        ClassForm::Plain { .. } => None,
    }));
    let why = "no production, type or escaped class names it";
    let names = tree.classes.iter().map(|class| &class.name);
    names
        .filter(|name| !named.contains(name.word.as_str()))
        .map(|name| not_used("class", name, why))
        .collect()
}

/// A type that only names itself isn't used either.
fn unused_types(tree: &Description) -> Vec<Mistake> {
    let mut named: HashSet<&str> = HashSet::new();
    let parameters = tree.templates.iter().flat_map(|it| &it.parameters);
    named.extend(parameters.map(|parameter| parameter.of.word.as_str()));
    for declared in &tree.types {
        let own = declared.name.word.as_str();
        let below: Vec<&Name> = match &declared.form {
            TypeForm::List(of) => vec![of],
            TypeForm::Record(fields) | TypeForm::Variant(fields) => {
                fields.iter().map(|field| &field.of).collect()
            }
            TypeForm::Text(_) | TypeForm::YesNo => Vec::new(),
        };
        let others = below.iter().map(|name| name.word.as_str());
        named.extend(others.filter(|&word| word != own));
    }
    let why = "no parameter, list, field or case of another type names it";
    let names = tree.types.iter().map(|declared| &declared.name);
    names
        .filter(|name| !named.contains(name.word.as_str()))
        .map(|name| not_used("type", name, why))
        .collect()
}

#[cfg(test)]
mod tests {
    use super::unused;
    use crate::language::parser::parse;

    const SMALL: &str = "class c 0 to 9 { 'a' } production p of n = c m* production q of m = c
        type t = text c type l = list t type r = record { l: l }
        template main (r: r) of n = expand all (r)
        template all (r: r) of n = build p (literal \"\" sequence (for x in r.l do expand one (x)))
        template one (x: t) of m = if x then build q (place x) else build q (place x)
        value { [] }\n";

    fn said(more: &str) -> Vec<String> {
        unused(&parse(&format!("{SMALL}{more}")).expect("a description"))
            .iter()
            .map(ToString::to_string)
            .collect()
    }

    #[test]
    fn all_is_used() {
        assert_eq!(said(""), [""; 0]);
    }

    #[test]
    fn a_production_that_nothing_builds() {
        assert_eq!(
            said("production p2 of n = \"x\""),
            ["line 7, column 12: production `p2` is not used: no template builds it"]
        );
    }

    #[test]
    fn a_template_that_nothing_expands() {
        assert_eq!(
            said(
                "template a (x: t) of m = build p2 (build q2 build q)\nproduction p2 of m = m\n\
                  template b (x: t) of m = if x then expand a (x) else expand a (x)\n\
                  production q2 of m ="
            ),
            [
                "line 8, column 12: production `p2` is not used: \
                 only template `a` builds it, which is not used itself",
                "line 10, column 12: production `q2` is not used: \
                 only template `a` builds it, which is not used itself",
                "line 7, column 10: template `a` is not used: \
                 only template `b` expands it, which is not used itself",
                "line 9, column 10: template `b` is not used: no template expands it",
            ]
        );
    }

    #[test]
    fn templates_that_use_one_another() {
        assert_eq!(
            said(
                "template a (x: t) of m = expand a (x)\ntemplate b (x: t) of m = expand d (x)\n\
                  template d (x: t) of m = if x then expand b (x) else expand d (x)"
            ),
            [
                "line 7, column 10: template `a` is not used: only it expands itself",
                "line 8, column 10: template `b` is not used: \
                 only template `d` expands it, which is not used itself",
                "line 9, column 10: template `d` is not used: \
                 only template `b` expands it, which is not used itself",
            ]
        );
    }

    #[test]
    fn many_users_are_counted() {
        let users: String = (0..5)
            .map(|n| format!("template u{n} (x: t) of m = build p2\n"))
            .collect();
        assert_eq!(
            said(&format!("production p2 of m =\n{users}"))[0],
            "line 7, column 12: production `p2` is not used: \
             only templates `u0`, `u1`, `u2`, `u3`, `u4` build it, which are not used themselves"
        );
    }

    #[test]
    fn a_production_may_have_a_templates_name() {
        assert_eq!(
            said("production u of m =\ntemplate u (x: t) of m = build u"),
            [
                "line 7, column 12: production `u` is not used: \
                 only template `u` builds it, which is not used itself",
                "line 8, column 10: template `u` is not used: no template expands it",
            ]
        );
    }

    #[test]
    fn classes_and_types() {
        assert_eq!(
            said("class d 0 to 1 {} class e = escaped d type u = text d type v = list v type w = yesno
                  type x = record { w: w x: x }"),
            [
                "line 7, column 25: class `e` is not used: \
                 no production, type or escaped class names it",
                "line 7, column 44: type `u` is not used: \
                 no parameter, list, field or case of another type names it",
                "line 7, column 60: type `v` is not used: \
                 no parameter, list, field or case of another type names it",
                "line 8, column 24: type `x` is not used: \
                 no parameter, list, field or case of another type names it",
            ]
        );
    }

    #[test]
    fn cases_name_types_and_arms_use_what_they_build() {
        assert_eq!(
            said("type u = yesno type v = variant { a: u b: v }"),
            ["line 7, column 21: type `v` is not used: \
              no parameter, list, field or case of another type names it"]
        );
        let arms = SMALL.replacen(
            "if x then build q (place x) else build q (place x)",
            "match x (a as y then build q2 b as z then expand two (z))",
            1,
        );
        let more = "template two (x: t) of m = build q (place x) production q2 of m = ";
        let tree = parse(&format!("{arms}{more}")).expect("a description");
        assert_eq!(unused(&tree).len(), 0);
    }

    #[test]
    fn long_chains() {
        let chain = |first: usize, last: usize| -> String {
            let link = |n| format!("template t{n} (x: t) of m = expand t{} (x)\n", n + 1);
            (first..last).map(link).collect()
        };
        let used = format!(
            "template t0 (x: t) of m = expand t1 (x) {} template t5000 (x: t) of m = build q (place x)",
            chain(1, 5000)
        );
        let rest = SMALL.replace("template main", "template unused");
        let tree = parse(&format!("{used}{rest}")).expect("a description");
        assert_eq!(unused(&tree).len(), 4, "p, unused, all and one");
        assert_eq!(said(&chain(0, 5000)).len(), 5000);
    }
}
