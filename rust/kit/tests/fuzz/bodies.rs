//! The bodies of the templates of a random description, mostly typed as the library wants them.

use super::plan::{Class, Element, Plan, Type};
use super::random::Random;

/// How many nodes a body has before only small ones are chosen.
const NODES: usize = 60;

/// How many paths are looked through.
const PATHS: usize = 200;

pub struct Bodies<'a> {
    plan: &'a Plan,
    random: &'a mut Random,
    /// The variables, each with its name and type.
    scope: Vec<(String, usize)>,
    nodes: usize,
    /// The template whose body it is.
    own: usize,
}

impl<'a> Bodies<'a> {
    pub fn new(plan: &'a Plan, random: &'a mut Random) -> Self {
        Self {
            plan,
            random,
            scope: Vec::new(),
            nodes: 0,
            own: 0,
        }
    }

    pub fn of_template(mut self, number: usize) -> String {
        let template = &self.plan.templates[number];
        let parameters = template.parameters.iter().enumerate();
        let named = parameters.map(|(at, of)| (self.plan.name('v', at), *of));
        self.scope = named.collect();
        self.own = number;
        self.node(template.of, 0)
    }

    fn slip(&mut self) -> bool {
        self.plan.slip(self.random)
    }

    /// A node for a nonterminal.
    fn node(&mut self, of: usize, depth: usize) -> String {
        self.nodes += 1;
        let of = match self.slip() {
            true => self.random.below(self.plan.nonterminals.len()),
            false => of,
        };
        let small = depth > 6 || self.nodes > NODES;
        match self.random.below(8) {
            0 | 1 if !small || self.plan.cyclic => self.expand(of, depth),
            2 if !small => self.branch(of, depth),
            3 | 4 if !small => self.matched(of, depth),
            _ => self.build(of, depth, small),
        }
    }

    fn build(&mut self, of: usize, depth: usize, small: bool) -> String {
        let plan = self.plan;
        let row = &plan.nonterminals[of];
        let number = if small {
            0
        } else {
            self.random.below(row.len())
        };
        let mut children = Vec::new();
        for element in &row[number] {
            let count = if self.slip() { self.random.below(3) } else { 1 };
            for _ in 0..count {
                children.extend(self.child(element, depth + 1));
            }
        }
        let name = plan.production_name(of, number);
        format!("build {name} ({})", children.join("\n "))
    }

    /// The node that an element asks for; a keyword asks for none.
    fn child(&mut self, element: &Element, depth: usize) -> Option<String> {
        match element {
            Element::Keyword(_) => None,
            _ if self.slip() => Some(self.anything(depth)),
            Element::Class(class) => Some(self.lexeme(*class)),
            Element::One(of) => Some(self.node(*of, depth)),
            Element::Many(of, _) => Some(self.sequence(*of, depth)),
        }
    }

    fn anything(&mut self, depth: usize) -> String {
        let nonterminal = self.random.below(self.plan.nonterminals.len());
        let class = self.random.below(self.plan.classes.len());
        match self.random.below(5) {
            0 => self.lexeme(class),
            4 => format!("match {} (0 as w then literal \"a\")", self.any_path()),
            1 if depth < 8 => self.sequence(nonterminal, depth),
            2 => format!("for w in {} do literal \"a\"", self.any_path()),
            _ => "literal \"\\xC0 & \\u{B}\"".to_string(),
        }
    }

    /// A literal or a place for a class.
    fn lexeme(&mut self, class: usize) -> String {
        let plain = match self.plan.classes[class] {
            Class::Escaped(of) => of,
            Class::Plain { .. } => class,
        };
        let text = |it: &Type| matches!(it, Type::Text(of) if *of == plain);
        match self.path_to(text) {
            Some(path) if !self.random.one_in(5) => format!("place {path}"),
            _ => format!("literal \"{}\"", self.literal(plain)),
        }
    }

    fn literal(&mut self, plain: usize) -> String {
        let (least, most) = match self.plan.classes.get(plain) {
            Some(Class::Plain { least, most, .. }) => (*least, *most),
            _ => (1, 1),
        };
        let more = self.random.mostly_small(most.saturating_sub(least).min(20));
        let count = match self.slip() {
            true => self.random.mostly_small(500),
            false => least + more,
        };
        "abcxyz".chars().cycle().take(count).collect()
    }

    fn sequence(&mut self, of: usize, depth: usize) -> String {
        let most = if depth > 6 || self.nodes > NODES {
            0
        } else {
            3
        };
        let count = self.random.mostly_small(most);
        let items: Vec<String> = (0..count).map(|_| self.item(of, depth + 1)).collect();
        format!("sequence ({})", items.join("\n "))
    }

    fn item(&mut self, of: usize, depth: usize) -> String {
        let list = self.path_to(|it| matches!(it, Type::List(_)));
        let Some(path) = list.filter(|_| !self.random.one_in(4)) else {
            return self.node(of, depth);
        };
        let item = match self.found(&path) {
            Some(Type::List(item)) => *item,
            _ => 0,
        };
        // Sometimes the name of a variable around, which it then hides.
        let name = match self.random.one_in(4) {
            true => self.plan.name('v', 0),
            false => self.plan.name('i', self.scope.len()),
        };
        self.scope.push((name.clone(), item));
        let body = self.node(of, depth + 1);
        self.scope.pop();
        format!("for {name} in {path} do {body}")
    }

    fn branch(&mut self, of: usize, depth: usize) -> String {
        let Some(path) = self.path_to(|it| matches!(it, Type::YesNo)) else {
            return self.build(of, depth, true);
        };
        let (yes, no) = (self.node(of, depth + 1), self.node(of, depth + 1));
        format!("if {path} then {yes} else {no}")
    }

    /// A match, its arms by name in any order, or by number and then not always as many as the cases.
    fn matched(&mut self, of: usize, depth: usize) -> String {
        let Some(path) = self.path_to(|it| matches!(it, Type::Variant(_))) else {
            return self.build(of, depth, true);
        };
        let cases: &[usize] = match self.found(&path) {
            Some(Type::Variant(cases)) => cases,
            _ => &[],
        };
        let by_number = self.slip();
        let count = match by_number {
            true => self.random.below(cases.len() + 3),
            false => cases.len(),
        };
        let mut arms = Vec::new();
        for number in 0..count {
            let case = match by_number {
                true => number.min(255).to_string(),
                false => self.plan.name('k', number),
            };
            let content = self.plan.name('i', self.scope.len());
            let known = cases.get(number).copied();
            self.scope.extend(known.map(|it| (content.clone(), it)));
            let node = self.node(of, depth + 1);
            self.scope
                .truncate(self.scope.len() - usize::from(known.is_some()));
            arms.push(format!("{case} as {content} then {node}"));
        }
        if self.random.one_in(2) {
            arms.reverse();
        }
        format!("match {path} ({})", arms.join("\n "))
    }

    /// A template of the nonterminal whose parameters can be had here.
    fn expand(&mut self, of: usize, depth: usize) -> String {
        let templates = &self.plan.templates;
        let first = if self.plan.cyclic { 0 } else { self.own + 1 };
        let start = self.random.below(templates.len() + 1).max(first);
        let found = (start..templates.len()).find(|it| templates[*it].of == of);
        let Some(number) = found else {
            return self.build(of, depth, true);
        };
        let mut paths = Vec::new();
        for &wanted in &templates[number].parameters {
            match self.path_of(wanted) {
                Some(path) => paths.push(path),
                None if self.slip() => paths.push(self.any_path()),
                None => return self.build(of, depth, true),
            }
        }
        let name = self.plan.name('m', number);
        format!("expand {name} ({})", paths.join(" "))
    }

    /// A path that may not be there, by numbers.
    fn any_path(&mut self) -> String {
        let fields = self.random.below(4);
        let numbers = (0..=fields).map(|_| self.random.mostly_small(9).to_string());
        numbers.collect::<Vec<String>>().join(".")
    }

    fn path_to(&mut self, wanted: impl Fn(&Type) -> bool) -> Option<String> {
        let types = &self.plan.types;
        let paths = self.paths();
        let fitting: Vec<&(String, usize)> =
            paths.iter().filter(|it| wanted(&types[it.1])).collect();
        (!fitting.is_empty()).then(|| self.random.pick(&fitting).0.clone())
    }

    fn path_of(&mut self, wanted: usize) -> Option<String> {
        let paths = self.paths();
        let fitting: Vec<&(String, usize)> = paths.iter().filter(|it| it.1 == wanted).collect();
        (!fitting.is_empty()).then(|| self.random.pick(&fitting).0.clone())
    }

    fn found(&self, path: &str) -> Option<&'a Type> {
        let paths = self.paths();
        let of = paths.iter().find(|it| it.0 == path).map(|it| it.1);
        of.map(|of| &self.plan.types[of])
    }

    /// The paths from the variables on, with the types that they find. Of equal names the last counts.
    fn paths(&self) -> Vec<(String, usize)> {
        let mut found: Vec<(String, usize)> = Vec::new();
        for (name, of) in self.scope.iter().rev() {
            if !found.iter().any(|it| it.0 == *name) {
                found.push((name.clone(), *of));
            }
        }
        let mut next = 0;
        while next < found.len() && found.len() < PATHS {
            let (path, of) = found[next].clone();
            if let (Type::Record(fields), true) =
                (&self.plan.types[of], path.matches('.').count() < 5)
            {
                for (at, field) in fields.iter().enumerate() {
                    found.push((format!("{path}.{}", self.plan.name('f', at)), *field));
                }
            }
            next += 1;
        }
        found
    }
}
