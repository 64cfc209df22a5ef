//! Typing: templates against the grammar (refusal 7), the value against its type (refusal 8).

use crate::answer::{Kind, Refusal};
use crate::classes::Lexemes;
use crate::grammar::{Grammar, Symbol};
use crate::templates::{Form, Path, Shape, Template, Templates};
use crate::value::{Content, Value};

/// What stands at a place of a body is asked for by its position.
#[derive(Clone, Copy)]
enum Position {
    Class(u16),
    Nonterminal(u16),
    Repetition(u16),
    /// An item of a sequence: a node in the position of the nonterminal, or a for.
    Item(u16),
}

/// The first node that doesn't suit its position or holds a path that isn't there.
pub(crate) fn judge_templates(
    grammar: &Grammar<'_>,
    lexemes: &Lexemes,
    set: &Templates<'_>,
) -> Result<(), Refusal> {
    if set.templates.first().map(|root| root.parameters.len()) != Some(1) {
        return Err(Refusal::at(7, Kind::Templates, 0));
    }
    for template in &set.templates {
        let parameters = template.parameters.iter().map(|p| p.number);
        let mut body = Body {
            grammar,
            lexemes,
            set,
            variables: parameters.collect(),
        };
        body.judge(template.body, Position::Nonterminal(template.nonterminal))
            .map_err(|place| Refusal::at(7, Kind::Templates, place))?;
    }
    Ok(())
}

/// One template's body, with the types of the variables at the node that is judged: the
/// parameters, then the loops and arms from outside in.
struct Body<'a> {
    grammar: &'a Grammar<'a>,
    lexemes: &'a Lexemes,
    set: &'a Templates<'a>,
    variables: Vec<u16>,
}

/// The place of the first offending node.
type Judged = Result<(), usize>;

impl<'a> Body<'a> {
    /// Judges a node and all below it. Recursion is bounded, since refusal 4 has been tried.
    fn judge(&mut self, index: usize, position: Position) -> Judged {
        let set = self.set;
        let node = &set.nodes[index];
        match (&node.form, position) {
            (Form::Literal(text), Position::Class(class)) => {
                let holds = self.lexemes.contain(class, text);
                holds.then_some(()).ok_or(node.place)
            }
            (Form::Place(path), Position::Class(class)) => {
                let taken = self.grammar.plain_class(class);
                let fits = matches!(self.shape_of(path), Some(Shape::Text(c)) if *c == taken);
                fits.then_some(()).ok_or(node.place)
            }
            (Form::Sequence, Position::Repetition(n)) => set
                .children(index)
                .try_for_each(|item| self.judge(item, Position::Item(n))),
            (Form::For(path), Position::Item(n)) => match self.shape_of(path) {
                Some(&Shape::List(item)) => self.judge_with(index + 1, item, n),
                _ => Err(node.place),
            },
            (form, Position::Nonterminal(n) | Position::Item(n)) => {
                self.judge_nonterminal(index, form, n)
            }
            _ => Err(node.place),
        }
    }

    /// Judges the body of a loop or an arm, which sees one variable more, of a type.
    fn judge_with(&mut self, index: usize, more: u16, nonterminal: u16) -> Judged {
        self.variables.push(more);
        self.judge(index, Position::Nonterminal(nonterminal))?;
        self.variables.pop();
        Ok(())
    }

    fn judge_nonterminal(&mut self, index: usize, form: &Form<'_>, nonterminal: u16) -> Judged {
        let place = self.set.nodes[index].place;
        match form {
            Form::Build { production } => self.judge_build(index, *production, nonterminal),
            Form::Expand { template, paths } => {
                let template = &self.set.templates[usize::from(*template)];
                let fits = template.nonterminal == nonterminal && self.arguments(template, paths);
                fits.then_some(()).ok_or(place)
            }
            Form::If(path) => {
                let Some(Shape::YesNo) = self.shape_of(path) else {
                    return Err(place);
                };
                self.set
                    .children(index)
                    .try_for_each(|branch| self.judge(branch, Position::Nonterminal(nonterminal)))
            }
            Form::Match(path) => self.judge_match(index, path, nonterminal),
            _ => Err(place),
        }
    }

    /// A match has one arm for each case, and all of them are judged.
    fn judge_match(&mut self, index: usize, path: &Path, nonterminal: u16) -> Judged {
        let set = self.set;
        let cases = match self.shape_of(path) {
            Some(Shape::Variant(cases)) if cases.len() == set.children(index).count() => cases,
            _ => return Err(set.nodes[index].place),
        };
        set.children(index)
            .zip(cases)
            .try_for_each(|(arm, case)| self.judge_with(arm, case.number, nonterminal))
    }

    fn judge_build(&mut self, index: usize, production: u16, nonterminal: u16) -> Judged {
        let set = self.set;
        let production = &self.grammar.productions[usize::from(production)];
        let asked = production.elements.iter().filter_map(|e| asks(e.symbol));
        if production.nonterminal != nonterminal
            || asked.clone().count() != set.children(index).count()
        {
            return Err(set.nodes[index].place);
        }
        set.children(index)
            .zip(asked)
            .try_for_each(|(child, position)| self.judge(child, position))
    }

    /// Whether the paths are as many as the parameters and of their very types.
    fn arguments(&self, template: &Template, paths: &[Path]) -> bool {
        let parameters = template.parameters.iter().map(|p| Some(p.number));
        paths.iter().map(|path| self.type_of(path)).eq(parameters)
    }

    /// The number of the type that a path finds.
    fn type_of(&self, path: &Path) -> Option<u16> {
        let mut number = *self.variables.get(path.variable)?;
        for &field in path.fields() {
            let Shape::Record(fields) = &self.set.types[usize::from(number)].shape else {
                return None;
            };
            number = fields.get(usize::from(field))?.number;
        }
        Some(number)
    }

    fn shape_of(&self, path: &Path) -> Option<&'a Shape> {
        let number = self.type_of(path)?;
        Some(&self.set.types[usize::from(number)].shape)
    }
}

/// The position that an element asks a child for; a keyword asks for none.
fn asks(symbol: Symbol<'_>) -> Option<Position> {
    match symbol {
        Symbol::Keyword(_) => None,
        Symbol::Class(class) => Some(Position::Class(class)),
        Symbol::Nonterminal(n) => Some(Position::Nonterminal(n)),
        Symbol::Repetition(n, _) => Some(Position::Repetition(n)),
    }
}

/// The first value that isn't of the type it should have.
pub(crate) fn judge_value(
    lexemes: &Lexemes,
    set: &Templates<'_>,
    value: &Value<'_>,
) -> Result<(), Refusal> {
    let declared = set.templates[0].parameters[0].number;
    let typed = Typed {
        lexemes,
        set,
        value,
    };
    typed
        .judge(0, declared)
        .map_err(|place| Refusal::at(8, Kind::Value, place))
}

struct Typed<'a> {
    lexemes: &'a Lexemes,
    set: &'a Templates<'a>,
    value: &'a Value<'a>,
}

impl Typed<'_> {
    /// Judges a value and all below it. Recursion is bounded, since refusal 4 has been tried.
    fn judge(&self, index: usize, number: u16) -> Judged {
        let item = &self.value.items[index];
        match (&self.set.types[usize::from(number)].shape, item.content) {
            (Shape::Text(class), Content::Text(text)) if self.lexemes.contain(*class, text) => {
                Ok(())
            }
            (Shape::YesNo, Content::YesNo(_)) => Ok(()),
            (Shape::List(kind), Content::List) => self
                .value
                .children(index)
                .try_for_each(|child| self.judge(child, *kind)),
            (Shape::Record(fields), Content::Record { count, .. }) if fields.len() == count => self
                .value
                .children(index)
                .zip(fields)
                .try_for_each(|(child, field)| self.judge(child, field.number)),
            (Shape::Variant(cases), Content::Case(number)) => {
                let case = cases.get(usize::from(number)).ok_or(item.place)?;
                self.judge(index + 1, case.number)
            }
            _ => Err(item.place),
        }
    }
}
