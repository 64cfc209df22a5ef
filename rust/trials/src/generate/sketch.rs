//! Random template sets over a random grammar, and a value for them.

use build::{Class, Element, Grammar, Node, Path, Template, Templates, Type};

use super::lexemes::{escaped_lexeme, lexeme, near_escaped, near_lexeme};
use super::values::Values;
use super::{grammars, Streams};
use crate::random::Random;

/// A set with a value. Without slips it is accepted and the value is of its declared type; with
/// slips one choice in so many is wrong.
pub(super) fn set(random: &mut Random, slips: Option<usize>) -> Streams {
    let mut drawn = grammars::grammar(random);
    let mut types = draw_types(random, &drawn.grammar);
    let signatures = draw_signatures(random, &drawn.nonterminals, &types);
    let root = signatures[0].parameters[0];
    let mut sketch = Sketch {
        random,
        grammar: &drawn.grammar,
        types: &types,
        signatures: &signatures,
        slips,
        left: 0,
    };
    let templates = sketch.templates();
    let mut values = Values {
        left: *random.pick(&[5, 20, 80, 300]),
        random,
        grammar: &drawn.grammar,
        types: &types,
        slips,
    };
    let value = values.value(root, 1);
    if slips.is_some() {
        slip_grammar(random, &mut drawn.grammar);
        slip_types(random, &mut types, drawn.grammar.classes.len());
    }
    Streams::of(&drawn.grammar, &Templates { types, templates }, &value)
}

/// A template's nonterminal and the types of its parameters.
struct Signature {
    nonterminal: u16,
    parameters: Vec<u16>,
}

fn draw_types(random: &mut Random, grammar: &Grammar) -> Vec<Type> {
    let mut types = vec![Type::YesNo];
    for class in grammar.plain_classes() {
        if !random.once_in(4) {
            types.push(Type::Text(class));
        }
    }
    let total = types.len() + random.between(1, 7);
    while types.len() < total {
        let earlier = types.len();
        types.push(match random.below(9) {
            0 => Type::List(random.below(total) as u16),
            5 => random.pick(&types).clone(),
            1 => Type::List(random.below(earlier) as u16),
            6..=8 => {
                let count = *random.pick(&[1, 2, 2, 3, 5]);
                Type::Variant(some_of(random, earlier, count))
            }
            _ => {
                let count = random.below(7);
                Type::Record(some_of(random, earlier, count))
            }
        });
    }
    types
}

/// So many numbers of the earlier types.
fn some_of(random: &mut Random, earlier: usize, count: usize) -> Vec<u16> {
    (0..count).map(|_| random.below(earlier) as u16).collect()
}

fn draw_signatures(random: &mut Random, nonterminals: &[u16], types: &[Type]) -> Vec<Signature> {
    let last = types.len() - 1;
    let root = last - random.below(3.min(last + 1));
    let mut signatures = vec![Signature {
        nonterminal: *random.pick(nonterminals),
        parameters: vec![root as u16],
    }];
    for _ in 0..random.below(5) {
        let count = *random.pick(&[0, 1, 1, 2, 3, 8]);
        signatures.push(Signature {
            nonterminal: *random.pick(nonterminals),
            parameters: (0..count)
                .map(|_| random.below(types.len()) as u16)
                .collect(),
        });
    }
    signatures
}

struct Sketch<'a> {
    random: &'a mut Random,
    grammar: &'a Grammar,
    types: &'a [Type],
    signatures: &'a [Signature],
    slips: Option<usize>,
    /// Nodes that may still be drawn before bodies are closed.
    left: usize,
}

/// How deep a drawn body goes before it is closed, and how many loops it nests.
const DEEP: usize = 40;
const LOOPS: usize = 14;

impl Sketch<'_> {
    fn templates(&mut self) -> Vec<Template> {
        let signatures = self.signatures;
        let body = |(number, signature): (usize, &Signature)| {
            self.left = *self.random.pick(&[3, 12, 40, 120]);
            let mut scope = Scope {
                template: number,
                parameters: signature.parameters.len(),
                variables: signature.parameters.clone(),
            };
            Template {
                nonterminal: signature.nonterminal,
                parameters: signature.parameters.clone(),
                body: self.node(signature.nonterminal, &mut scope, 1),
            }
        };
        signatures.iter().enumerate().map(body).collect()
    }

    fn slips(&mut self) -> bool {
        self.slips.is_some_and(|slips| self.random.once_in(slips))
    }

    /// A node in the position of a nonterminal.
    fn node(&mut self, nonterminal: u16, scope: &mut Scope, depth: usize) -> Node {
        self.left = self.left.saturating_sub(1);
        if self.slips() {
            return self.odd_node(scope);
        }
        let choice = self.random.below(10);
        if self.left == 0 || depth > DEEP {
            return self.build(self.productions(nonterminal)[0], scope, depth);
        }
        let other = match choice {
            0 | 1 => self.expand(nonterminal, scope),
            2 | 3 => self.either(nonterminal, scope, depth),
            4 | 5 => self.by_case(nonterminal, scope, depth),
            _ => None,
        };
        other.unwrap_or_else(|| {
            let productions = self.productions(nonterminal);
            let production = *self.random.pick(&productions);
            self.build(production, scope, depth)
        })
    }

    /// The productions of a nonterminal; the first has no nonterminal among its elements.
    fn productions(&self, nonterminal: u16) -> Vec<usize> {
        let of = |&number: &usize| self.grammar.productions[number].nonterminal == nonterminal;
        (0..self.grammar.productions.len()).filter(of).collect()
    }

    fn build(&mut self, production: usize, scope: &mut Scope, depth: usize) -> Node {
        let grammar = self.grammar;
        let mut children = Vec::new();
        for element in &grammar.productions[production].elements {
            match element {
                Element::Keyword(_) => {}
                Element::Class(class) => children.push(self.lexeme(*class, scope)),
                Element::Nonterminal(n) => children.push(self.node(*n, scope, depth + 1)),
                Element::Repetition(n) | Element::Separated(n, _) => {
                    children.push(self.sequence(*n, scope, depth + 1));
                }
            }
        }
        if self.slips() && children.pop().is_none() {
            children.push(Node::literal(""));
        }
        Node::build(production as u16, children)
    }

    fn lexeme(&mut self, class: u16, scope: &Scope) -> Node {
        let (plain, table) = self.grammar.plain(class).expect("a class");
        let paths = self.paths(scope, |kind| *kind == Type::Text(plain));
        let [right, near] = match plain == class {
            true => [lexeme, near_lexeme],
            false => [escaped_lexeme, near_escaped],
        };
        if self.slips() {
            return match self.random.below(3) {
                0 => Node::place(self.odd_path(scope)),
                1 => self.odd_node(scope),
                _ => Node::literal(near(self.random, table)),
            };
        }
        if paths.is_empty() || self.random.once_in(4) {
            return Node::literal(right(self.random, table));
        }
        Node::place(self.random.pick(&paths).clone())
    }

    fn sequence(&mut self, nonterminal: u16, scope: &mut Scope, depth: usize) -> Node {
        if self.slips() {
            return self.odd_node(scope);
        }
        let most = if self.left == 0 || depth > DEEP {
            0
        } else {
            *self.random.pick(&[0, 1, 2, 3, 6])
        };
        let mut items = Vec::new();
        for _ in 0..most {
            let item = self.each(nonterminal, scope, depth + 1);
            items.push(item.unwrap_or_else(|| self.node(nonterminal, scope, depth + 1)));
        }
        Node::Sequence(items)
    }

    /// A for, if a list is in sight.
    fn each(&mut self, nonterminal: u16, scope: &mut Scope, depth: usize) -> Option<Node> {
        let lists = self.paths(scope, |kind| matches!(kind, Type::List(_)));
        let loops = scope.variables.len() - scope.parameters;
        if lists.is_empty() || loops >= LOOPS || self.random.once_in(3) {
            return None;
        }
        let path = self.random.pick(&lists).clone();
        let Type::List(item) = self.types[usize::from(self.type_of(&path, scope)?)] else {
            return None;
        };
        scope.variables.push(item);
        let body = self.node(nonterminal, scope, depth + 1);
        scope.variables.pop();
        let path = if self.slips() {
            self.odd_path(scope)
        } else {
            path
        };
        Some(Node::each(path, body))
    }

    /// An if, if a yes/no is in sight.
    fn either(&mut self, nonterminal: u16, scope: &mut Scope, depth: usize) -> Option<Node> {
        let answers = self.paths(scope, |kind| *kind == Type::YesNo);
        let path = if self.slips() {
            self.odd_path(scope)
        } else if answers.is_empty() {
            return None;
        } else {
            self.random.pick(&answers).clone()
        };
        let yes = self.node(nonterminal, scope, depth + 1);
        let no = self.node(nonterminal, scope, depth + 1);
        Some(Node::either(path, yes, no))
    }

    /// A match, if a variant is in sight.
    fn by_case(&mut self, nonterminal: u16, scope: &mut Scope, depth: usize) -> Option<Node> {
        let variants = self.paths(scope, |kind| matches!(kind, Type::Variant(_)));
        let around = scope.variables.len() - scope.parameters;
        if variants.is_empty() || around >= LOOPS {
            return None;
        }
        let mut path = self.random.pick(&variants).clone();
        let types = self.types;
        let Type::Variant(cases) = &types[usize::from(self.type_of(&path, scope)?)] else {
            return None;
        };
        let mut arms = Vec::new();
        for &case in cases {
            scope.variables.push(case);
            arms.push(self.node(nonterminal, scope, depth + 1));
            scope.variables.pop();
        }
        if self.slips() {
            match self.random.below(4) {
                0 => drop(arms.pop()),
                1 => arms.push(self.odd_node(scope)),
                2 => arms.reverse(),
                _ => path = self.odd_path(scope),
            }
        }
        Some(Node::by_case(path, arms))
    }

    /// An expand of a template of the nonterminal for whose parameters values are in sight; mostly
    /// of a later one, so that few sets go round in circles.
    fn expand(&mut self, nonterminal: u16, scope: &Scope) -> Option<Node> {
        let around = self.random.once_in(6);
        let first = if around { 0 } else { scope.template + 1 };
        let any = self.slips();
        let fitting: Vec<usize> = (first..self.signatures.len())
            .filter(|&number| any || self.signatures[number].nonterminal == nonterminal)
            .collect();
        if fitting.is_empty() {
            return None;
        }
        let template = *self.random.pick(&fitting);
        let mut arguments = Vec::new();
        for &parameter in &self.signatures[template].parameters {
            let paths = self.paths_to(scope, parameter);
            if self.slips() {
                arguments.push(self.odd_path(scope));
            } else if paths.is_empty() {
                return None;
            } else {
                arguments.push(self.random.pick(&paths).clone());
            }
        }
        if self.slips() {
            arguments.push(Path::variable(0));
        }
        Some(Node::expand(template as u16, arguments))
    }

    /// Paths to values of one type by number.
    fn paths_to(&self, scope: &Scope, number: u16) -> Vec<Path> {
        let mut paths = self.all_paths(scope);
        paths.retain(|(_, found)| *found == number);
        paths.into_iter().map(|(path, _)| path).collect()
    }

    /// Paths to values whose type is wanted.
    fn paths(&self, scope: &Scope, wanted: impl Fn(&Type) -> bool) -> Vec<Path> {
        let mut paths = self.all_paths(scope);
        paths.retain(|(_, found)| wanted(&self.types[usize::from(*found)]));
        paths.into_iter().map(|(path, _)| path).collect()
    }

    /// All paths in sight with the types that they find, up to some hundred.
    fn all_paths(&self, scope: &Scope) -> Vec<(Path, u16)> {
        let variables = scope.variables.iter().enumerate();
        let mut paths: Vec<(Path, u16)> = variables
            .map(|(number, &kind)| (Path::variable(number as u8), kind))
            .collect();
        let mut next = 0;
        while next < paths.len() && paths.len() < 300 {
            let (path, kind) = paths[next].clone();
            if let (Type::Record(fields), true) =
                (&self.types[usize::from(kind)], path.fields.len() < 5)
            {
                let step = |(field, &kind): (usize, &u16)| (path.clone().field(field as u8), kind);
                paths.extend(fields.iter().enumerate().map(step));
            }
            next += 1;
        }
        paths
    }

    fn type_of(&self, path: &Path, scope: &Scope) -> Option<u16> {
        let mut paths = self.all_paths(scope).into_iter();
        paths.find(|(found, _)| found == path).map(|(_, kind)| kind)
    }

    /// A path that leads to a value of any type, or anywhere.
    fn odd_path(&mut self, scope: &Scope) -> Path {
        let paths = self.all_paths(scope);
        if !paths.is_empty() && !self.random.once_in(3) {
            return self.random.pick(&paths).0.clone();
        }
        let variable = self.random.below(scope.variables.len() + 2) as u8;
        let steps = *self.random.pick(&[0, 0, 1, 2, 5]);
        let fields = (0..steps).map(|_| self.random.below(4) as u8).collect();
        Path { variable, fields }
    }

    /// A node that may stand anywhere but mostly not here.
    fn odd_node(&mut self, scope: &Scope) -> Node {
        let leaf = Node::literal("a");
        match self.random.below(9) {
            8 => {
                let arms = vec![leaf; self.random.below(3)];
                Node::by_case(self.odd_path(scope), arms)
            }
            0 => leaf,
            1 => Node::place(self.odd_path(scope)),
            2 => Node::Sequence(vec![]),
            3 => Node::each(self.odd_path(scope), leaf),
            4 => Node::either(self.odd_path(scope), leaf.clone(), leaf),
            5 => {
                let beyond = self.grammar.productions.len() + 1;
                Node::build(self.random.below(beyond) as u16, [])
            }
            6 => {
                let beyond = self.signatures.len() + 1;
                let path = self.odd_path(scope);
                Node::expand(self.random.below(beyond) as u16, [path])
            }
            _ => Node::build(0, [leaf]),
        }
    }
}

/// The variables at a node, by their types, and the template that it stands in.
struct Scope {
    template: usize,
    parameters: usize,
    variables: Vec<u16>,
}

/// Once in a while turns a class upside down, or lets an escaped class or an element name what it
/// must not.
fn slip_grammar(random: &mut Random, grammar: &mut Grammar) {
    let total = grammar.classes.len();
    let number = random.below(total);
    match &mut grammar.classes[number] {
        Class::Plain(class) => match random.below(24) {
            0 => class.least = class.most.saturating_add(1),
            1 => class.ranges.push((0x42, 0x41)),
            2 => class.ranges.insert(0, (0x10FFFF, 0x110000)),
            _ => {}
        },
        // An earlier class, itself, a later one or none.
        Class::Escaped(plain) if random.once_in(4) => *plain = random.below(total + 2) as u16,
        Class::Escaped(_) => {}
    }
    if random.once_in(8) {
        let beyond = total as u16;
        let nonterminal = random.number() as u16;
        let odd = [
            Element::Class(beyond),
            Element::Class(beyond + 1),
            Element::Nonterminal(nonterminal),
            Element::Repetition(nonterminal),
            Element::separated(nonterminal, ", "),
        ];
        let production = random.below(grammar.productions.len());
        let odd = random.pick(&odd).clone();
        grammar.productions[production].elements.push(odd);
    }
}

/// Once in a while lets a type or field name nothing, a text any class, or a field or case its own or
/// a later type.
fn slip_types(random: &mut Random, types: &mut [Type], classes: usize) {
    let total = types.len();
    let number = random.below(total);
    let named = random.between(number, total) as u16;
    match &mut types[number] {
        Type::Text(class) if random.once_in(5) => *class = random.below(classes + 1) as u16,
        Type::List(item) if random.once_in(10) => *item = total as u16,
        Type::Record(fields) if random.once_in(10) => fields.push(named),
        Type::Variant(cases) if random.once_in(10) => cases[0] = named,
        _ => {}
    }
}
