//! Fors whose body can only write the empty text.
//!
//! A node may write if there is anything in it that may: every node writes what its parts write, one
//! behind the other. So the templates that may write are those that have such a part of their own, and
//! those that expand one of them. What isn't certain may write.

use super::admits::{Classes, Texts};
use crate::language::description::{Arm, Description, Element, Node, NodeForm, Production};
use crate::mistake::Mistake;
use crate::reasons::context::WIDEST;
use crate::words::{cut, quoted};
use std::collections::HashMap;

/// What is said of the templates' fors.
pub fn silent(tree: &Description) -> Vec<Mistake> {
    let mut templates = Templates::of(tree);
    templates.may_write = templates.writing(tree);
    let mut seen = Seen::default();
    for template in &tree.templates {
        templates.node(&template.body, None, &mut seen);
    }
    seen.fors
}

/// What was seen on the way through nodes.
#[derive(Default)]
struct Seen {
    /// The templates that are expanded.
    expanded: Vec<usize>,
    /// What is said of the fors whose body writes nothing.
    fors: Vec<Mistake>,
}

struct Templates<'a> {
    classes: Classes<'a>,
    productions: HashMap<&'a str, &'a Production>,
    numbers: HashMap<&'a str, usize>,
    /// Which templates are known to write something, or may do so.
    may_write: Vec<bool>,
}

impl<'a> Templates<'a> {
    /// The templates, of which none is known to write yet.
    fn of(tree: &'a Description) -> Self {
        let production = |it: &'a Production| (it.name.word.as_str(), it);
        let names = tree.templates.iter().map(|it| it.name.word.as_str());
        Self {
            classes: Classes::of(tree),
            productions: tree.productions.iter().map(production).collect(),
            numbers: names.zip(0..).collect(),
            may_write: vec![false; tree.templates.len()],
        }
    }

    /// Which templates may write: first those that do so without any expand, then, from each of these,
    /// those that expand it. Templates that only expand one another in a circle write nothing.
    fn writing(&self, tree: &Description) -> Vec<bool> {
        let mut users = vec![Vec::new(); tree.templates.len()];
        let mut next = Vec::new();
        for (number, template) in tree.templates.iter().enumerate() {
            let mut seen = Seen::default();
            if self.node(&template.body, None, &mut seen) {
                next.push(number);
            }
            for other in seen.expanded {
                users[other].push(number);
            }
        }
        let mut may_write = vec![false; tree.templates.len()];
        while let Some(number) = next.pop() {
            if !std::mem::replace(&mut may_write[number], true) {
                next.extend(&users[number]);
            }
        }
        may_write
    }

    /// Whether a node may write, where an element is due if that is known. All of the node is seen.
    fn node(&self, node: &Node, due: Option<&Element>, seen: &mut Seen) -> bool {
        match &node.form {
            NodeForm::Build(production, children) => {
                let production = self.productions.get(production.word.as_str());
                self.build(production.copied(), children, seen)
            }
            NodeForm::Literal(text) => !text.bytes.is_empty(),
            NodeForm::Place(_) => self.place(due),
            NodeForm::Expand(template, _) => match self.numbers.get(template.word.as_str()) {
                Some(&number) => {
                    seen.expanded.push(number);
                    self.may_write[number]
                }
                None => true,
            },
            NodeForm::If(_, yes, no) => self.node(yes, due, seen) | self.node(no, due, seen),
            NodeForm::For(_, _, body) => {
                let writes = self.node(body, due, seen);
                if !writes {
                    seen.fors.push(Mistake::new(node.at, message(due)));
                }
                writes | separator(due).is_some()
            }
            NodeForm::Sequence(items) => {
                let each = |writes, item| writes | self.node(item, due, seen);
                let separated = items.len() > 1 && separator(due).is_some();
                items.iter().fold(separated, each)
            }
            NodeForm::Match(_, arms) => {
                let each = |writes, arm: &Arm| writes | self.node(&arm.node, due, seen);
                arms.iter().fold(false, each)
            }
        }
    }

    /// A build may write if a keyword or a child may. One whose children don't fit its production isn't
    /// judged.
    fn build(&self, production: Option<&Production>, children: &[Node], seen: &mut Seen) -> bool {
        let elements = production.map_or(&[][..], |it| it.elements.as_slice());
        let (keywords, due): (Vec<&Element>, Vec<&Element>) = elements
            .iter()
            .partition(|element| matches!(element, Element::Keyword(_)));
        let written = |element: &&Element| matches!(element, Element::Keyword(text) if !text.bytes.is_empty());
        let fits = production.is_some() && due.len() == children.len();
        let mut writes = !fits || keywords.iter().any(written);
        for (number, child) in children.iter().enumerate() {
            writes |= self.node(child, due.get(number).copied(), seen);
        }
        writes
    }

    /// A place writes a text of the class that is due, and so nothing where that has only the empty one.
    fn place(&self, due: Option<&Element>) -> bool {
        match due {
            Some(Element::One(name)) => self.classes.texts(&name.word) != Some(Texts::Empty),
            _ => true,
        }
    }
}

/// The separator of the repetition that is due, unless it is empty.
fn separator(due: Option<&Element>) -> Option<&[u8]> {
    match due {
        Some(Element::Many(_, Some(text))) if !text.bytes.is_empty() => Some(&text.bytes),
        _ => None,
    }
}

fn message(due: Option<&Element>) -> String {
    let nothing = "the body of this `for` writes nothing, whatever its items are";
    match separator(due) {
        None => nothing.to_string(),
        Some(text) => format!(
            "{nothing}: only the separators {} are written",
            cut(&quoted(text), WIDEST)
        ),
    }
}

#[cfg(test)]
mod tests {
    use super::silent;
    use crate::language::parser::parse;

    const HEAD: &str = r#"class c 0 to 9 { 'a' } class empty 0 to 0 {} class xml = escaped empty
        production list of n = m* production commas of n = m*(", ") production nothing of n = m*("")
        production none of m = production blank of m = "" "" production a of m = "" "a"
        production text of m = c production no_text of m = "" empty xml production deep of m = n ""
        type t = text c type l = list t type e = text empty
        "#;

    /// What is said of a for with a body, in a production of the list, in the template `main` that
    /// other ones follow. The for stands at column 9 of line 8.
    fn said_in(list: &str, body: &str, more: &str) -> Vec<String> {
        let text = format!(
            "{HEAD}template main (l: l) of n = build {list} (sequence (build a\n        \
             for x in l do {body}))\n{more}"
        );
        silent(&parse(&text.replacen('\n', "\n\n", 1)).expect("a description"))
            .iter()
            .map(ToString::to_string)
            .collect()
    }

    fn said(body: &str) -> Vec<String> {
        said_in("list", body, "")
    }

    const NOTHING: &str =
        "line 8, column 9: the body of this `for` writes nothing, whatever its items are";

    #[test]
    fn bodies_that_write_nothing() {
        for body in [
            "build none",
            "build blank",
            "build text (literal \"\")",
            "build no_text (place x place x)",
            "build no_text (literal \"\" place x)",
            "if x then build none else build blank",
            "build deep (build list (sequence (build none build blank)))",
            "build deep (build nothing (sequence (build none build blank)))",
            "build deep (build commas (sequence (build none)))",
            "build deep (build commas (sequence ()))",
            "build text (if x then literal \"\" else literal \"\")",
            "match x (a as y then build none b as z then build blank)",
            "match x ()",
        ] {
            assert_eq!(said(body), [NOTHING], "{body}");
            assert_eq!(said_in("nothing", body, ""), [NOTHING], "{body}");
        }
    }

    #[test]
    fn only_separators_are_written() {
        assert_eq!(
            said_in("commas", "build none", ""),
            [
                "line 8, column 9: the body of this `for` writes nothing, whatever its items are: \
              only the separators \", \" are written"
            ]
        );
    }

    #[test]
    fn bodies_that_may_write() {
        for body in [
            "build a",
            "build text (literal \"a\")",
            "build text (place x)",
            "if x then build none else build a",
            "if x then build a else build none",
            "match x (a as y then build none b as z then build a)",
            "match x (a as y then build text (place y) b as z then build none)",
            "build deep (build list (sequence (build none build a)))",
            "build deep (build commas (sequence (build none build none)))",
            "build text (if x then literal \"\" else place x)",
            "build none (place x)",
            "build other",
            "expand other ()",
            "place x",
        ] {
            assert_eq!(said(body), [""; 0], "{body}");
        }
    }

    #[test]
    fn fors_in_fors() {
        let inner = |list, body| {
            said(&format!(
                "build deep (build {list} (sequence (\nfor y in l do {body})))"
            ))
        };
        let inner_nothing = NOTHING.replace("line 8, column 9", "line 9, column 1");
        assert_eq!(
            inner("list", "build none"),
            [inner_nothing.clone(), NOTHING.to_string()]
        );
        assert_eq!(
            inner("commas", "build none"),
            [format!(
                "{inner_nothing}: only the separators \", \" are written"
            )]
        );
        assert_eq!(inner("list", "build a"), [""; 0]);
    }

    #[test]
    fn expanded_templates() {
        for (more, nothing) in [
            ("template u (x: t) of m = build none", true),
            ("template u (x: t) of m = build a", false),
            ("template u (x: t) of m = expand u (x)", true),
            (
                "template u (x: t) of m = if x then expand v (x) else build none
                 template v (x: t) of m = if x then expand u (x) else build none",
                true,
            ),
            (
                "template u (x: t) of m = if x then expand v (x) else build none
                 template v (x: t) of m = if x then expand u (x) else build a",
                false,
            ),
        ] {
            let expected: &[&str] = if nothing { &[NOTHING] } else { &[] };
            assert_eq!(said_in("list", "expand u (x)", more), expected, "{more}");
        }
    }

    #[test]
    fn a_chain_of_5000_templates() {
        let chain: String = (0..5000)
            .map(|n| format!("template u{n} (x: t) of m = expand u{} (x)\n", n + 1))
            .collect();
        for (last, expected) in [("none", &[NOTHING][..]), ("a", &[])] {
            let more = format!("{chain}template u5000 (x: t) of m = build {last}");
            assert_eq!(said_in("list", "expand u0 (x)", &more), expected);
        }
    }
}
