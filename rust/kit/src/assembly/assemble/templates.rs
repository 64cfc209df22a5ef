//! The records of templates and their nodes.

use super::paths::Scope;
use super::Assembler;
use crate::assembly::sheet::{word, Sheet, What};
use crate::language::description::{Description, Name, Node, NodeForm, Path, Template, TypeForm};
use crate::language::rows::numbered;
use crate::streams::record::Record;

impl Assembler<'_> {
    /// The types, then the templates.
    pub(super) fn templates(&mut self, tree: &Description) -> Sheet {
        let mut sheet = Sheet::default();
        for declared in &tree.types {
            self.type_records(declared, &mut sheet);
        }
        for template in &tree.templates {
            self.template(template, &mut sheet);
        }
        sheet
    }

    fn template(&mut self, template: &Template, sheet: &mut Sheet) {
        let Name { word: name, at } = &template.name;
        let row = &self.rows.nonterminals;
        let of = &template.nonterminal;
        let nonterminal = numbered(row, of, "nonterminal", &mut self.mistakes);
        let count = u8::try_from(template.parameters.len()).unwrap_or_else(|_| {
            self.mistake(*at, "a template's record counts up to 255 parameters");
            0
        });
        let record = Record::new(3, count, [nonterminal, 0, 0]);
        let head = sheet.push_named(record, *at, What::Template, name);
        self.typed(&template.parameters, 4, What::Parameter, sheet);
        let mut scope = Scope::default();
        for parameter in &template.parameters {
            let of = self.rows.type_named(&parameter.of);
            scope.variables.push((parameter.name.word.clone(), of));
        }
        self.node(&template.body, &mut scope, sheet);
        sheet.close(head);
    }

    pub(super) fn node(&mut self, node: &Node, scope: &mut Scope, sheet: &mut Sheet) {
        let (form, b, d) = self.node_fields(&node.form);
        let head = sheet.push(Record::new(5, form, [b, 0, d]), node.at);
        match &node.form {
            NodeForm::Build(_, nodes) | NodeForm::Sequence(nodes) => {
                nodes.iter().for_each(|node| self.node(node, scope, sheet));
            }
            NodeForm::Literal(text) => sheet.push_text(&text.bytes, text.at),
            NodeForm::Place(path) => {
                self.path(path, scope, sheet);
            }
            NodeForm::Expand(_, paths) => {
                for path in paths {
                    self.path(path, scope, sheet);
                }
            }
            NodeForm::If(path, yes, no) => {
                self.path(path, scope, sheet);
                self.node(yes, scope, sheet);
                self.node(no, scope, sheet);
            }
            NodeForm::For(item, path, body) => {
                let names = &mut sheet.origins[head].names;
                names.push((What::Loop, item.word.clone()));
                self.for_body(item, path, body, scope, sheet);
            }
            NodeForm::Match(path, arms) => self.arms(node.at, path, arms, scope, sheet),
        }
        sheet.close(head);
    }

    /// A node's form and its fields b and d.
    fn node_fields(&mut self, form: &NodeForm) -> (u8, u16, u16) {
        let (rows, mistakes) = (&self.rows, &mut self.mistakes);
        match form {
            NodeForm::Build(name, children) => {
                let production = numbered(&rows.productions, name, "production", mistakes);
                (0, production, word(children.len()))
            }
            NodeForm::Literal(text) => (1, self.text_length(text), 0),
            NodeForm::Place(_) => (2, 0, 0),
            NodeForm::Expand(name, paths) => {
                let template = numbered(&rows.templates, name, "template", mistakes);
                (3, template, word(paths.len()))
            }
            NodeForm::If(..) => (4, 0, 0),
            NodeForm::For(..) => (5, 0, 0),
            NodeForm::Sequence(items) => (6, 0, word(items.len())),
            NodeForm::Match(_, arms) => (7, 0, word(arms.len())),
        }
    }

    /// What is below a for: in its body the item is one variable more.
    fn for_body(
        &mut self,
        item: &Name,
        path: &Path,
        body: &Node,
        scope: &mut Scope,
        sheet: &mut Sheet,
    ) {
        let list = self.path(path, scope, sheet);
        let of = match self.rows.form(list) {
            Some(TypeForm::List(of)) => self.rows.type_named(of),
            _ => None,
        };
        scope.variables.push((item.word.clone(), of));
        self.node(body, scope, sheet);
        scope.variables.pop();
    }
}
