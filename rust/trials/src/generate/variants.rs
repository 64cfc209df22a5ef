//! Variants and matches: as many cases, arms, loops and levels as may be, and one more or less.

use build::{Element, Grammar, Node, Path, Templates, Type, Value};

use super::Streams;
use crate::damage::change_case;
use crate::random::Random;

/// A set with variants.
pub(super) fn set(random: &mut Random) -> Streams {
    match random.below(12) {
        0..=2 => counted(random),
        3 | 4 => loops_and_arms(random),
        5 => deep_value(random),
        6 => deep_body(random),
        7 => odd_body(random),
        8 => odd_case(random),
        _ => rows(random),
    }
}

/// Nonterminal 0: production 0 `(` 0 `)`, 1 a Latin word, 2 `[` 0, .. `]`, 3 nothing, 4 a Greek word;
/// nonterminal 1: production 5 `!`.
fn grammar() -> Grammar {
    let keyword = |text: &str| Element::keyword(text);
    let mut grammar = Grammar::new();
    let latin = grammar.class(1, 4, &[(0x61, 0x7A)]);
    let greek = grammar.class(1, 4, &[(0x370, 0x3FF)]);
    grammar.production(0, [keyword("("), Element::Nonterminal(0), keyword(")")]);
    grammar.production(0, [Element::Class(latin)]);
    let row = Element::separated(0, ", ");
    grammar.production(0, [keyword("["), row, keyword("]")]);
    grammar.production(0, []);
    grammar.production(0, [Element::Class(greek)]);
    grammar.production(1, [keyword("!")]);
    grammar
}

fn variable(number: usize) -> Path {
    Path::variable(number as u8)
}

fn latin(path: Path) -> Node {
    Node::build(1, [Node::place(path)])
}

fn greek(path: Path) -> Node {
    Node::build(4, [Node::place(path)])
}

fn row(items: impl IntoIterator<Item = Node>) -> Node {
    Node::build(2, [Node::sequence(items)])
}

fn nothing() -> Node {
    Node::build(3, [])
}

/// Adds the types that cases have in turn: 0 a Latin word, 1 a Greek word, 2 a record of both.
fn contents(templates: &mut Templates) {
    let [one, other] = [0, 1].map(|class| templates.text(class));
    templates.record([one, other]);
}

/// A value of one of these.
fn content(kind: usize) -> Value {
    match kind % 3 {
        0 => Value::text("ab"),
        1 => Value::text("αβ"),
        _ => Value::record([Value::text("cd"), Value::text("γδ")]),
    }
}

/// A node that fits one of these, on a variable.
fn arm(kind: usize, variable: Path) -> Node {
    match kind % 3 {
        0 => latin(variable),
        1 => greek(variable),
        _ => latin(variable.field(0)),
    }
}

/// What may not be an arm, or not that of any case.
fn odd_arm(random: &mut Random) -> Node {
    match random.below(8) {
        0 => Node::each(variable(0), nothing()),
        1 => Node::sequence([nothing()]),
        2 => Node::literal("ab"),
        3 => Node::place(variable(2)),
        4 => Node::build(5, []),
        5 => latin(variable(3)),
        6 => Node::build(9, []),
        _ => latin(variable(2).field(2)),
    }
}

/// A list of variants of so many cases, each with its arm.
fn counted(random: &mut Random) -> Streams {
    let count = *random.pick(&[0, 1, 1, 2, 2, 3, 3, 5, 254, 255, 256, 257, 300]);
    let mut templates = Templates::new();
    contents(&mut templates);
    let mut cases: Vec<u16> = (0..count).map(|number| number % 3).collect();
    if random.once_in(6) && count > 0 {
        // Itself, the list behind it, or none.
        cases[random.below(count.into())] = *random.pick(&[3, 4, 5, 999]);
    }
    let variant = templates.variant(cases);
    let list = templates.list(variant);
    let mut arms: Vec<Node> = (0..count.into())
        .map(|number| arm(number, variable(2)))
        .collect();
    if random.once_in(3) {
        spoil(random, &mut arms);
    }
    let each = Node::each(variable(0), Node::by_case(variable(1), arms));
    templates.template(0, [list], row([each]));
    let values = (0..random.below(5)).map(|_| case_of(random, count.into()));
    Streams::of(
        &grammar(),
        &templates,
        &Value::list(values.collect::<Vec<_>>()),
    )
}

/// Lets an arm be left out, be there twice, change places with another or be none that may stand
/// there.
fn spoil(random: &mut Random, arms: &mut Vec<Node>) {
    let count = arms.len();
    let (one, two) = (random.below(count), random.below(count));
    match random.below(7) {
        0 => drop(arms.pop()),
        1 => arms.push(nothing()),
        2 => arms.clear(),
        _ if count == 0 => {}
        3 | 4 => arms.swap(one, two),
        _ => arms[*random.pick(&[0, one, count - 1])] = odd_arm(random),
    }
}

/// A case of one of so many, at times of one past them, or with the content of another.
fn case_of(random: &mut Random, count: usize) -> Value {
    let last = count.saturating_sub(1);
    let number = match random.below(12) {
        0 => count,
        1 => *random.pick(&[count + 1, 255]),
        2..=4 => last,
        5..=7 => 0,
        _ => random.below(count),
    };
    let kind = match random.once_in(10) {
        true => number + 1,
        false => number,
    };
    Value::case(number as u8, content(kind))
}

/// About sixteen loops and arms in any order around a place.
fn loops_and_arms(random: &mut Random) -> Streams {
    let count = *random.pick(&[14, 15, 16, 16, 17, 17, 18]);
    let arms: Vec<bool> = (0..count).map(|_| random.once_in(2)).collect();
    let mut templates = Templates::new();
    let text = templates.text(0);
    let (mut kind, mut value) = (text, Value::text("ab"));
    let mut body = latin(variable(count));
    for (number, &is_arm) in arms.iter().enumerate().rev() {
        let wide = random.once_in(6);
        (kind, value, body) = match is_arm {
            true => (
                templates.variant([text, kind]),
                Value::case(1, value),
                Node::by_case(variable(number), [nothing(), body]),
            ),
            false => (
                templates.list(kind),
                Value::list(vec![value; 1 + usize::from(wide)]),
                row([Node::each(variable(number), body)]),
            ),
        };
    }
    templates.template(0, [kind], body);
    Streams::of(&grammar(), &templates, &value)
}

/// Cases, lists and records in one another, near 200 levels deep, around a word that may be none.
fn deep_value(random: &mut Random) -> Streams {
    let levels = *random.pick(&[1, 2, 100, 197, 198, 199, 199, 200, 201, 300]);
    let only_cases = random.once_in(2);
    let mut templates = Templates::new();
    let text = templates.text(0);
    let (mut kind, mut value) = (text, Value::text(*random.pick(&["ab", "ab", "λ"])));
    for _ in 0..levels {
        let wrong = u8::from(random.once_in(400));
        let choice = if only_cases { 0 } else { random.below(4) };
        (kind, value) = match choice {
            2 => (templates.list(kind), Value::list([value])),
            3 => (templates.record([kind]), Value::record([value])),
            _ => (templates.variant([kind]), Value::case(wrong, value)),
        };
    }
    templates.template(0, [kind], nothing());
    Streams::of(&grammar(), &templates, &value)
}

/// Builds and up to sixteen matches in one another, near 200 levels deep: in one body, or in that of a
/// template that is expanded there.
fn deep_body(random: &mut Random) -> Streams {
    let levels = *random.pick(&[3, 100, 197, 198, 199, 200, 201, 203]);
    let mut templates = Templates::new();
    contents(&mut templates);
    let variant = templates.variant([0, 1]);
    let expanded = random.once_in(2);
    let last = Node::by_case(variable(0), [nothing(), nothing()]);
    let (mut body, mut left) = match expanded {
        true => (Node::expand(1, [variable(0)]), levels - 3),
        false => (last.clone(), levels - 2),
    };
    let mut matches = 15;
    while left > 0 {
        left -= 1;
        body = match random.below(12) {
            0 | 1 if matches > 0 => {
                matches -= 1;
                let mut arms = [body, nothing()];
                arms.rotate_left(random.below(2));
                Node::by_case(variable(0), arms)
            }
            _ => Node::build(0, [body]),
        };
    }
    templates.template(0, [variant], body);
    if expanded {
        templates.template(0, [variant], last);
    }
    let number = random.below(2);
    let value = Value::case(number as u8, content(number));
    Streams::of(&grammar(), &templates, &value)
}

/// A record of what there is, and a node that takes one thing for another: a match on no variant, an
/// if, a for or a place on one, a path that steps into one, a match where none may stand.
fn odd_body(random: &mut Random) -> Streams {
    let mut templates = Templates::new();
    contents(&mut templates);
    let yes_no = templates.yes_no();
    let list = templates.list(0);
    let variant = templates.variant([0, 2]);
    let whole = templates.record([0, 1, 2, yes_no, list, variant]);
    let path = variable(0).field(random.below(7) as u8);
    let inside = path.clone().field(random.below(3) as u8);
    let arms = || [nothing(), nothing()];
    let stepped = |path| match path {
        0 => latin(inside.clone()),
        1 => Node::by_case(inside.clone(), arms()),
        _ => Node::expand(0, [inside.clone()]),
    };
    let node = match random.below(8) {
        0 | 1 => Node::by_case(path, arms()),
        2 => Node::either(path, nothing(), nothing()),
        3 => row([Node::each(path, nothing())]),
        4 => latin(path),
        5 => stepped(random.below(3)),
        6 => Node::build(1, [Node::by_case(path, arms())]),
        _ => Node::build(2, [Node::by_case(path, arms())]),
    };
    let body = match random.below(3) {
        0 => Node::by_case(variable(0).field(5), [nothing(), node]),
        1 => Node::either(variable(0).field(3), nothing(), node),
        _ => node,
    };
    templates.template(0, [whole], body);
    let texts = [content(0), content(1), content(2)];
    let number = random.below(2);
    let case = Value::case(number as u8, content(2 * number));
    let rest = [Value::YesNo(random.once_in(2)), Value::list([]), case];
    let value = Value::record(texts.into_iter().chain(rest));
    Streams::of(&grammar(), &templates, &value)
}

/// A set of rows on a value one of whose cases is laid out otherwise.
fn odd_case(random: &mut Random) -> Streams {
    let mut streams = rows(random);
    change_case(random, &mut streams.value);
    streams
}

/// Rows with separators whose items are matches: by themselves, in fors, under ifs and in one another,
/// with arms that write nothing, rows in rows, and arms that pass their content on.
fn rows(random: &mut Random) -> Streams {
    let mut templates = Templates::new();
    contents(&mut templates);
    let list = templates.list(0);
    let inner = templates.variant([0, 1]);
    let variant = templates.variant([0, list, 2, inner]);
    let all = templates.list(variant);
    let yes_no = templates.yes_no();
    let whole = templates.add(Type::Record(vec![all, variant, yes_no]));
    let levels = *random.pick(&[0, 0, 0, 0, 188, 191, 193, 195, 196]);
    let items: Vec<Node> = (0..random.below(5)).map(|_| item(random)).collect();
    let body = (0..levels).fold(row(items), |body, _| Node::build(0, [body]));
    templates.template(0, [whole], body);
    templates.template(0, [0], latin(variable(0)));
    templates.template(0, [inner, 2], on_inner(0));
    let values: Vec<Value> = (0..random.below(6)).map(|_| value(random)).collect();
    let rest = [value(random), Value::YesNo(random.once_in(2))];
    let value = Value::record([Value::List(values)].into_iter().chain(rest));
    Streams::of(&grammar(), &templates, &value)
}

/// A match on the inner variant, whose content is the variable behind those that there are.
fn on_inner(number: usize) -> Node {
    let content = match number {
        // The other parameter stands between.
        0 => 2,
        _ => number + 1,
    };
    let arms = [latin(variable(content)), greek(variable(content))];
    Node::by_case(variable(number), arms)
}

/// A match on the outer variant, with so many variables already.
fn on_outer(random: &mut Random, path: Path, variables: usize) -> Node {
    let content = || variable(variables);
    let words = row([Node::each(content(), latin(variable(variables + 1)))]);
    let arms = [
        [latin(content()), Node::expand(1, [content()])],
        [words, nothing()],
        [greek(content().field(1)), latin(content().field(0))],
        [on_inner(variables), nothing()],
    ];
    let arms = arms.map(|[one, other]| match random.once_in(3) {
        true => other,
        false => one,
    });
    Node::by_case(path, arms)
}

/// An item of the row: the list of variants, the variant and the yes/no are fields of variable 0.
fn item(random: &mut Random) -> Node {
    let field = |number| variable(0).field(number);
    match random.below(7) {
        0 | 1 => Node::each(field(0), on_outer(random, variable(1), 2)),
        2 => on_outer(random, field(1), 1),
        3 => Node::either(field(2), on_outer(random, field(1), 1), nothing()),
        4 => {
            let again = on_outer(random, variable(1), 3);
            let arms = [nothing(), again.clone(), nothing(), again];
            Node::each(field(0), Node::by_case(field(1), arms))
        }
        5 => Node::by_case(field(1), [nothing(), nothing(), pairs(), nothing()]),
        _ => nothing(),
    }
}

/// In the arm of a record, for each of the list that holds an inner variant, an expand with that and the
/// record.
fn pairs() -> Node {
    let pair = Node::expand(2, [variable(3), variable(1)]);
    let arms = [nothing(), nothing(), nothing(), pair];
    let item = Node::by_case(variable(2), arms);
    row([Node::each(variable(0).field(0), item)])
}

/// A value of the outer variant.
fn value(random: &mut Random) -> Value {
    let count = *random.pick(&[0, 1, 2, 5]);
    match random.below(4) {
        0 => Value::case(0, content(0)),
        1 => Value::case(1, Value::list(vec![content(0); count])),
        2 => Value::case(2, content(2)),
        _ => {
            let number = random.below(2);
            Value::case(3, Value::case(number as u8, content(number)))
        }
    }
}
