//! The meaning of each head, by the kind of its stream.

use crate::reasons::names::{Arm, Names};
use crate::streams::record::{Record, CASES};
use crate::streams::thing::Thing;
use crate::words::{counted, named};
use std::fmt;

/// What a head says of itself and of what follows it.
#[derive(Default)]
pub struct Head {
    /// What it says.
    pub says: String,
    /// What is odd about it.
    pub odd: Vec<String>,
    /// Its size, where its record has one.
    pub size: Option<u16>,
    /// The bytes of the text that follows, where one does.
    pub text: Option<u16>,
    /// The things below it, in order.
    pub below: Vec<(Thing, usize)>,
}

impl Head {
    fn new(says: String) -> Self {
        Self {
            says,
            ..Self::default()
        }
    }

    fn sized(mut self, record: Record) -> Self {
        self.size = Some(record.c());
        self.says.push_str(&format!(", size {}", record.c()));
        self
    }

    fn text(mut self, bytes: u16) -> Self {
        self.text = Some(bytes);
        self
    }

    fn below(mut self, things: &[(Thing, usize)]) -> Self {
        self.below = things.to_vec();
        self
    }

    /// Fields that must be zero.
    fn unused(mut self, fields: &[(&str, u16)]) -> Self {
        for (name, number) in fields.iter().filter(|(_, number)| *number != 0) {
            self.odd
                .push(format!("the unused field {name} is {number}, not zero"));
        }
        self
    }

    /// The case and the variable of the arm that begins here, where they are known.
    fn arm(mut self, arm: Option<&Arm>) -> Self {
        if let Some(case) = arm.and_then(|arm| arm.case.as_ref()) {
            self.says.push_str(&format!(", for case {}", named(case)));
        }
        if let Some(content) = arm.and_then(|arm| arm.content.as_ref()) {
            self.says.push_str(&format!(" as {}", named(content)));
        }
        self
    }

    fn odd_if(mut self, broken: bool, what: impl Into<String>) -> Self {
        if broken {
            self.odd.push(what.into());
        }
        self
    }
}

/// Where a head stands, and what things are called there.
#[derive(Clone, Copy)]
pub struct Spot<'a> {
    /// Its number among its neighbours.
    pub number: usize,
    /// The index of its record.
    pub index: usize,
    /// The number of the last type before it: the one that a field is in.
    pub holder: usize,
    /// Whether that type is a variant, whose fields are its cases.
    pub in_variant: bool,
    /// The names of the set.
    pub names: &'a Names,
}

/// Reads a head.
pub fn head(thing: Thing, record: Record, spot: Spot<'_>) -> Head {
    match thing {
        Thing::Class => class(record, spot),
        Thing::Range => range(record),
        Thing::Production => production(record, spot),
        Thing::Element => element(record, spot.names),
        Thing::Type => type_head(record, spot),
        Thing::Field => {
            let fields = spot.names.fields.get(spot.holder);
            let name = fields.and_then(|it| it.get(spot.number));
            let what = if spot.in_variant { "case" } else { "field" };
            typed(record, spot, name, what)
        }
        Thing::Template => template(record, spot),
        Thing::Parameter => {
            let name = spot.names.variables.get(&spot.index);
            typed(record, spot, name, "parameter")
        }
        Thing::Node => node(record, spot),
        Thing::Path => path(record, spot),
        Thing::Value => value(record),
    }
}

/// A number with the name that it stands for, where that is known.
fn with_name(number: impl fmt::Display, name: Option<&String>) -> String {
    match name {
        Some(name) => format!("{number} {}", named(name)),
        None => number.to_string(),
    }
}

fn class_called(names: &Names, number: u16) -> String {
    with_name(number, names.classes.get(usize::from(number)))
}

fn type_called(names: &Names, number: usize) -> String {
    with_name(number, names.types.get(number))
}

fn nonterminal_called(names: &Names, number: u16) -> String {
    with_name(number, names.nonterminals.get(usize::from(number)))
}

fn class(record: Record, spot: Spot<'_>) -> Head {
    let (own, b, c, d) = (record.a(), record.b(), record.c(), record.d());
    let called = class_called(spot.names, u16::from(own));
    let head = match record.kind() {
        1 => {
            let ranges = usize::from(d);
            let counts = counted(ranges, "range", "ranges");
            Head::new(format!("class {called}: {b} to {c} characters, {counts}"))
                .below(&[(Thing::Range, ranges)])
        }
        _ => {
            let plain = class_called(spot.names, b);
            Head::new(format!("class {called}: the escaped form of class {plain}"))
                .unused(&[("c", c), ("d", d)])
        }
    };
    let due = spot.number;
    head.odd_if(usize::from(own) != due, next_class(due))
}

/// Which class is due. The number of a class is a byte, that of a production isn't.
fn next_class(due: usize) -> String {
    match u8::try_from(due) {
        Ok(due) => format!("the next class is number {due}"),
        Err(_) => "a class's number is a byte, and 256 classes stand before this one".to_string(),
    }
}

fn range(record: Record) -> Head {
    let (lowest, highest) = (record.point(1), record.point(4));
    Head::new(format!("range U+{lowest:04X}-U+{highest:04X}")).odd_if(
        record.0[7] != 0,
        format!("byte 7 is {}, not zero", record.0[7]),
    )
}

fn production(record: Record, spot: Spot<'_>) -> Head {
    let (own, elements) = (record.production_number(), usize::from(record.d()));
    let counts = counted(elements, "element", "elements");
    let called = with_name(own, spot.names.productions.get(own));
    let of = nonterminal_called(spot.names, record.b());
    let (a, c, due) = (record.a(), record.c(), spot.number);
    Head::new(format!("production {called} of nonterminal {of}: {counts}"))
        .odd_if(
            own != due,
            format!(
                "this production has the number {own} (a {a}, c {c}), \
                 and the next in the row is {due} (a {}, c {})",
                due % 256,
                due / 256
            ),
        )
        .below(&[(Thing::Element, elements)])
}

fn element(record: Record, names: &Names) -> Head {
    let (b, c) = (record.b(), record.c());
    let nonterminal = nonterminal_called(names, b);
    let head = match record.a() {
        0 => Head::new(format!("keyword of {}", bytes(b))).text(b),
        1 => Head::new(format!("class {}", class_called(names, b))),
        2 => Head::new(format!("nonterminal {nonterminal}")),
        3 => Head::new(format!("repetition of nonterminal {nonterminal}")),
        4 => Head::new(format!(
            "repetition of nonterminal {nonterminal} with a separator of {}",
            bytes(c)
        ))
        .text(c),
        other => unknown(format!("element of form {other}")),
    };
    let head = match record.a() {
        4 => head,
        _ => head.unused(&[("c", c)]),
    };
    head.unused(&[("d", record.d())])
}

fn type_head(record: Record, spot: Spot<'_>) -> Head {
    let (b, c, d) = (record.b(), record.c(), record.d());
    let called = type_called(spot.names, spot.number);
    match record.a() {
        0 => Head::new(format!(
            "type {called}: text of class {}",
            class_called(spot.names, b)
        ))
        .unused(&[("c", c), ("d", d)]),
        1 => Head::new(format!("type {called}: yes/no")).unused(&[("b", b), ("c", c), ("d", d)]),
        2 => Head::new(format!(
            "type {called}: list of type {}",
            type_called(spot.names, usize::from(b))
        ))
        .unused(&[("c", c), ("d", d)]),
        3 => {
            let fields = usize::from(d);
            let counts = counted(fields, "field", "fields");
            Head::new(format!("type {called}: record of {counts}"))
                .unused(&[("b", b), ("c", c)])
                .below(&[(Thing::Field, fields)])
        }
        4 => {
            let cases = usize::from(d);
            let counts = counted(cases, "case", "cases");
            Head::new(format!("type {called}: variant of {counts}"))
                .odd_if(
                    !(1..=CASES).contains(&cases),
                    format!("a variant has 1 to {CASES} cases"),
                )
                .unused(&[("b", b), ("c", c)])
                .below(&[(Thing::Field, cases)])
        }
        other => unknown(format!("type {called}: form {other}")),
    }
}

fn typed(record: Record, spot: Spot<'_>, name: Option<&String>, what: &str) -> Head {
    let unused = [
        ("a", u16::from(record.a())),
        ("c", record.c()),
        ("d", record.d()),
    ];
    let own = with_name(spot.number, name);
    let of = type_called(spot.names, usize::from(record.b()));
    Head::new(format!("{what} {own}: type {of}")).unused(&unused)
}

fn template(record: Record, spot: Spot<'_>) -> Head {
    let parameters = usize::from(record.a());
    let counts = counted(parameters, "parameter", "parameters");
    let called = with_name(spot.number, spot.names.templates.get(spot.number));
    let of = nonterminal_called(spot.names, record.b());
    Head::new(format!("template {called} of nonterminal {of}: {counts}"))
        .sized(record)
        .unused(&[("d", record.d())])
        .below(&[(Thing::Parameter, parameters), (Thing::Node, 1)])
}

fn node(record: Record, spot: Spot<'_>) -> Head {
    let (b, d, count) = (record.b(), record.d(), usize::from(record.d()));
    let names = spot.names;
    match record.a() {
        0 => {
            let production = with_name(b, names.productions.get(usize::from(b)));
            let children = counted(count, "child", "children");
            Head::new(format!("build production {production}: {children}"))
                .below(&[(Thing::Node, count)])
        }
        1 => Head::new(format!("literal of {}", bytes(b)))
            .text(b)
            .unused(&[("d", d)]),
        2 => Head::new("place".to_string())
            .below(&[(Thing::Path, 1)])
            .unused(&[("b", b), ("d", d)]),
        3 => {
            let template = with_name(b, names.templates.get(usize::from(b)));
            let paths = counted(count, "path", "paths");
            Head::new(format!("expand template {template}: {paths}")).below(&[(Thing::Path, count)])
        }
        4 => Head::new("if".to_string())
            .below(&[(Thing::Path, 1), (Thing::Node, 2)])
            .unused(&[("b", b), ("d", d)]),
        5 => Head::new(with_name("for", names.variables.get(&spot.index)))
            .below(&[(Thing::Path, 1), (Thing::Node, 1)])
            .unused(&[("b", b), ("d", d)]),
        6 => Head::new(format!("sequence of {}", counted(count, "item", "items")))
            .below(&[(Thing::Node, count)])
            .unused(&[("b", b)]),
        7 => Head::new(format!("match of {}", counted(count, "arm", "arms")))
            .below(&[(Thing::Path, 1), (Thing::Node, count)])
            .unused(&[("b", b)]),
        other => unknown(format!("node of form {other}")),
    }
    .sized(record)
    .arm(names.arms.get(&spot.index))
}

fn path(record: Record, spot: Spot<'_>) -> Head {
    let (variable, steps) = (record.a(), usize::from(record.0[2]));
    let (used, rest) = record.0[3..].split_at(steps.min(5));
    let fields: String = used
        .iter()
        .map(|field| format!(", field {field}"))
        .collect();
    let written = spot.names.paths.get(&spot.index);
    let written = written.map_or_else(String::new, |it| format!(" {}", named(it)));
    Head::new(format!("path{written}: variable {variable}{fields}"))
        .odd_if(steps > 5, format!("it has {steps} steps, more than 5"))
        .odd_if(
            rest.iter().any(|&byte| byte != 0),
            "its bytes past the steps are not zero",
        )
}

fn value(record: Record) -> Head {
    let (a, b, d, count) = (
        u16::from(record.a()),
        record.b(),
        record.d(),
        usize::from(record.d()),
    );
    match record.kind() {
        1 => Head::new(format!("text of {}", bytes(b)))
            .text(b)
            .sized(record)
            .unused(&[("a", a), ("d", d)]),
        2 => Head::new(if a == 0 { "no" } else { "yes" }.to_string())
            .odd_if(a > 1, format!("a is {a}, neither 0 nor 1"))
            .unused(&[("b", b), ("c", record.c()), ("d", d)]),
        3 => Head::new(format!("list of {}", counted(count, "item", "items")))
            .below(&[(Thing::Value, count)])
            .sized(record)
            .unused(&[("a", a), ("b", b)]),
        5 => Head::new(format!("case {a}"))
            .below(&[(Thing::Value, 1)])
            .sized(record)
            .unused(&[("b", b), ("d", d)]),
        _ => Head::new(format!("record of {}", counted(count, "child", "children")))
            .below(&[(Thing::Value, count)])
            .sized(record)
            .unused(&[("a", a), ("b", b)]),
    }
}

fn unknown(says: String) -> Head {
    Head::new(says).odd_if(true, "there is no such form")
}

fn bytes(count: u16) -> String {
    counted(usize::from(count), "byte", "bytes")
}
