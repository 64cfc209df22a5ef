//! Random descriptions that are right in form and names, and mostly in what the library asks for.

use super::bodies::Bodies;
use super::random::Random;

/// A class, by its number in the row.
pub enum Class {
    Plain {
        least: usize,
        most: usize,
        ranges: Vec<(u32, u32)>,
    },
    Escaped(usize),
}

pub enum Element {
    Keyword(&'static str),
    Class(usize),
    One(usize),
    Many(usize, Option<&'static str>),
}

pub enum Type {
    Text(usize),
    YesNo,
    List(usize),
    Record(Vec<usize>),
    Variant(Vec<usize>),
}

pub struct Template {
    pub parameters: Vec<usize>,
    pub of: usize,
}

/// A description before it is written. All is named by its number and a tail.
pub struct Plan {
    pub classes: Vec<Class>,
    /// The productions of each nonterminal; the first of them asks for no other nonterminal.
    pub nonterminals: Vec<Vec<Vec<Element>>>,
    pub types: Vec<Type>,
    pub templates: Vec<Template>,
    /// Whether templates may expand those before them and themselves.
    pub cyclic: bool,
    /// Once in so many choices a wrong one is made; never if 0.
    pub slips: usize,
    /// What every name ends with.
    pub tail: String,
}

const KEYWORDS: [&str; 11] = [
    "[",
    "<a>",
    "<b\\u{1B}[2J>",
    " c=\\\"",
    "</a>",
    "\\n",
    "",
    ", ",
    "\\xFF\\x00",
    "\\u{1F305}",
    "a keyword of more than eight",
];

const RANGES: [(u32, u32); 12] = [
    (0x61, 0x7A),
    (0x20, 0x7E),
    (0x30, 0x39),
    (0x370, 0x3FF),
    (0xA0, 0xD7FF),
    (0x10000, 0x10FFFF),
    (0, 0x1F),
    (0x26, 0x26),
    (0x7F, 0x9F),
    (0xD800, 0xDFFF),
    (0xFFFE, 0xFFFF),
    (0x9, 0xD),
];

/// Ranges that the library refuses.
const NO_RANGES: [(u32, u32); 4] = [
    (0x7A, 0x61),
    (0x10FFFF, 0x110000),
    (0xFF_FFFF, 0xFF_FFFF),
    (1, 0),
];

impl Plan {
    pub fn new(random: &mut Random) -> Self {
        let slips = match random.below(3) {
            0 => 0,
            1 => random.between(60, 200),
            _ => random.between(8, 40),
        };
        let tail = match random.below(12) {
            0 => "_Ωδ".to_string(),
            1 => "x".repeat(random.between(50, 80)),
            2 => "é".repeat(random.mostly_small(6000)),
            _ => String::new(),
        };
        let mut plan = Self {
            classes: Vec::new(),
            nonterminals: Vec::new(),
            types: Vec::new(),
            templates: Vec::new(),
            cyclic: random.one_in(8),
            slips,
            tail,
        };
        plan.fill(random);
        plan
    }

    /// Whether a choice is to be wrong.
    pub fn slip(&self, random: &mut Random) -> bool {
        self.slips > 0 && random.one_in(self.slips)
    }

    fn fill(&mut self, random: &mut Random) {
        for _ in 0..random.between(1, 5) {
            let class = self.class(random);
            self.classes.push(class);
        }
        let nonterminals = random.between(1, 5);
        // Behind a long first row the others have numbers that are no bytes.
        let long = random.one_in(10);
        for number in 0..nonterminals {
            let count = match number {
                0 if long => random.between(250, 700),
                _ => random.between(1, 3),
            };
            let row = (0..count).map(|it| self.production(random, nonterminals, it == 0));
            let row = row.collect();
            self.nonterminals.push(row);
        }
        let types = random.between(2, 7);
        for number in 0..types {
            let new = self.new_type(random, number, types);
            self.types.push(new);
        }
        for number in 0..random.between(1, 6) {
            let count = match number {
                0 if !self.slip(random) => 1,
                _ => random.mostly_small(9),
            };
            let of = random.below(nonterminals);
            let parameters = (0..count).map(|_| random.below(types)).collect();
            self.templates.push(Template { parameters, of });
        }
    }

    fn class(&self, random: &mut Random) -> Class {
        let is_plain = |it: &usize| matches!(self.classes[*it], Class::Plain { .. });
        let plain: Vec<usize> = (0..self.classes.len()).filter(is_plain).collect();
        if random.one_in(3) && self.slip(random) {
            return Class::Escaped(random.below(self.classes.len() + 1));
        }
        if !plain.is_empty() && random.one_in(3) {
            return Class::Escaped(*random.pick(&plain));
        }
        let least = random.mostly_small(4);
        let most = match self.slip(random) {
            true => least.saturating_sub(1),
            false => least + random.mostly_small(300),
        };
        let mut ranges = vec![(0x61, 0x7A)];
        for _ in 0..random.mostly_small(4) {
            ranges.push(match self.slip(random) {
                true => *random.pick(&NO_RANGES),
                false => *random.pick(&RANGES),
            });
        }
        Class::Plain {
            least,
            most,
            ranges,
        }
    }

    fn production(&self, random: &mut Random, nonterminals: usize, leaf: bool) -> Vec<Element> {
        let element = |random: &mut Random| match random.below(8) {
            0..=2 => Element::Keyword(random.pick::<&str>(&KEYWORDS)),
            3 | 4 => Element::Class(random.below(self.classes.len())),
            5 if !leaf => Element::One(random.below(nonterminals)),
            _ => {
                let separator = random.one_in(2).then(|| *random.pick(&KEYWORDS));
                Element::Many(random.below(nonterminals), separator)
            }
        };
        (0..random.mostly_small(6))
            .map(|_| element(random))
            .collect()
    }

    fn new_type(&self, random: &mut Random, number: usize, count: usize) -> Type {
        let is_plain = |it: &usize| matches!(self.classes[*it], Class::Plain { .. });
        let plain: Vec<usize> = (0..self.classes.len()).filter(is_plain).collect();
        let form = if number == 0 { 0 } else { random.below(7) };
        match form {
            0 | 1 if self.slip(random) || plain.is_empty() => {
                Type::Text(random.below(self.classes.len()))
            }
            0 | 1 => Type::Text(*random.pick(&plain)),
            2 => Type::YesNo,
            // A list may be of a later type, and of its own.
            3 if random.one_in(4) => Type::List(random.below(count)),
            3 => Type::List(random.below(number)),
            4 => {
                let cases = match self.slip(random) {
                    true => *random.pick(&[0, 200, 255, 256, 257]),
                    false => random.between(1, 4),
                };
                Type::Variant(self.earlier(random, cases, number, count))
            }
            _ => {
                let fields = random.mostly_small(7);
                Type::Record(self.earlier(random, fields, number, count))
            }
        }
    }

    /// So many types that mostly stand before the type with a number.
    fn earlier(&self, random: &mut Random, many: usize, number: usize, count: usize) -> Vec<usize> {
        let one = |random: &mut Random| match self.slip(random) {
            true => random.below(count),
            false => random.below(number),
        };
        (0..many).map(|_| one(random)).collect()
    }

    /// The description, without a value.
    pub fn written(&self, random: &mut Random) -> String {
        let mut parts = Vec::new();
        let gap = *random.pick(&[" ", "\n  ", " , "]);
        parts.extend((0..self.classes.len()).map(|number| self.class_written(number)));
        for (of, row) in self.nonterminals.iter().enumerate() {
            for (number, elements) in row.iter().enumerate() {
                let words = elements.iter().map(|it| self.element_written(it));
                let words: Vec<String> = words.collect();
                let head = format!(
                    "production {} of {} =",
                    self.production_name(of, number),
                    self.name('n', of)
                );
                parts.push(format!("{head}{gap}{}", words.join(gap)));
            }
        }
        parts.extend((0..self.types.len()).map(|number| self.type_written(number)));
        for number in 0..self.templates.len() {
            let body = Bodies::new(self, random).of_template(number);
            parts.push(self.template_written(number, &body));
        }
        let end = if random.one_in(10) {
            "\r\n# é\n"
        } else {
            "\n"
        };
        parts.join(end) + end
    }

    /// A name of a row, by its number.
    pub fn name(&self, row: char, number: usize) -> String {
        format!("{row}{number}{}", self.tail)
    }

    pub fn production_name(&self, of: usize, number: usize) -> String {
        format!("p{of}_{number}{}", self.tail)
    }

    fn class_written(&self, number: usize) -> String {
        let name = self.name('c', number);
        match &self.classes[number] {
            Class::Escaped(of) => format!("class {name} = escaped {}", self.name('c', *of)),
            Class::Plain {
                least,
                most,
                ranges,
            } => {
                let ranges = ranges
                    .iter()
                    .map(|(low, high)| format!("U+{low:X}-U+{high:04X}"));
                let ranges: Vec<String> = ranges.collect();
                format!("class {name} {least} to {most} {{ {} }}", ranges.join(" "))
            }
        }
    }

    fn element_written(&self, element: &Element) -> String {
        match element {
            Element::Keyword(text) => format!("\"{text}\""),
            Element::Class(class) => self.name('c', *class),
            Element::One(of) => self.name('n', *of),
            Element::Many(of, None) => format!("{}*", self.name('n', *of)),
            Element::Many(of, Some(text)) => format!("{}*(\"{text}\")", self.name('n', *of)),
        }
    }

    fn type_written(&self, number: usize) -> String {
        let form = match &self.types[number] {
            Type::Text(class) => format!("text {}", self.name('c', *class)),
            Type::YesNo => "yesno".to_string(),
            Type::List(of) => format!("list {}", self.name('t', *of)),
            Type::Record(fields) => format!("record {{ {} }}", self.typed('f', fields)),
            Type::Variant(cases) => format!("variant {{ {} }}", self.typed('k', cases)),
        };
        format!("type {} = {form}", self.name('t', number))
    }

    /// Fields, cases or parameters with their types.
    fn typed(&self, row: char, types: &[usize]) -> String {
        let each = types.iter().enumerate();
        let words = each.map(|(at, of)| format!("{}: {}", self.name(row, at), self.name('t', *of)));
        words.collect::<Vec<String>>().join(" ")
    }

    fn template_written(&self, number: usize, body: &str) -> String {
        let template = &self.templates[number];
        let (name, of) = (self.name('m', number), self.name('n', template.of));
        let parameters = self.typed('v', &template.parameters);
        format!("template {name} ({parameters}) of {of} =\n  {body}")
    }
}
