//! Cases of refusals 4 to 7: limits, names, classes, typing.

use crate::case::{Case, Set};
use crate::example::{
    choice, endless, entries, grammar, in_grammar, in_templates, nothing, of_templates, pair,
    template, templates, two_templates, types, value, yes_no,
};
use crate::records::{path, range, step, Records};
use build::{record, text_units, Node, Path, Value};

/// All of them.
#[must_use]
pub fn all() -> Vec<Case> {
    [
        depths(),
        counts(),
        names(),
        classes(),
        lexemes(),
        positions(),
        arguments(),
        order(),
    ]
    .concat()
}

/// A third production: nonterminal 0 as nonterminal 0 itself, so that builds nest.
fn nesting() -> Records {
    grammar()
        .then(record(3, 2, 0, 0, 1))
        .then(record(4, 2, 0, 0, 0))
}

/// Builds of that production, and "[]" below them.
fn builds(levels: usize) -> Records {
    template((0..levels).fold(nothing(), |below, _| Node::build(2, [below])))
}

/// A list inside so many lists.
fn lists(levels: usize) -> Records {
    let value = (0..levels).fold(Value::list([]), |below, _| Value::list([below]));
    value.records().into()
}

/// Type 1 is the list of itself.
fn lists_of_lists() -> Records {
    template(nothing()).with(1, record(1, 2, 1, 0, 0))
}

fn depths() -> Vec<Case> {
    let nodes = |levels| Set::of(&nesting(), &builds(levels), &value());
    let values = |levels| Set::of(&grammar(), &lists_of_lists(), &lists(levels));
    vec![
        nodes(198).case("0 nodes 200 deep"),
        nodes(199).case("4 nodes 201 deep"),
        values(199).case("0 value 200 deep"),
        values(200).case("4 value 201 deep"),
    ]
}

/// A template of so many parameters.
fn parameters(count: usize) -> Records {
    let mut templates = types();
    templates.template(0, vec![1; count], nothing());
    templates.records().into()
}

/// Fors, each the body of the one before, and of the last a sequence of nothing.
fn loops(levels: usize) -> Records {
    let each = |body, _| Node::each(Path::variable(0), body);
    template((0..levels).fold(Node::sequence([]), each))
}

/// Within the limits, these fail their typing: template 0 has not one parameter, and a for is no
/// body.
fn counts() -> Vec<Case> {
    vec![
        of_templates("4 nine parameters", &parameters(9)),
        of_templates("7 eight parameters", &parameters(8)),
        of_templates("4 17 loops", &loops(17)),
        of_templates("7 16 loops", &loops(16)),
    ]
}

fn names() -> Vec<Case> {
    let own = pair().with(3, record(2, 0, 1, 0, 0));
    let later = endless().with(4, record(5, 3, 1, 2, 1));
    vec![
        in_grammar("5 element of class 1", 12, record(4, 1, 1, 0, 0)),
        in_grammar("5 repetition of nonterminal 2", 6, record(4, 3, 2, 0, 0)),
        in_templates("5 text of class 1", 0, record(1, 0, 1, 0, 0)),
        in_templates("5 list of type 2", 1, record(1, 2, 2, 0, 0)),
        in_templates("5 template of nonterminal 2", 2, record(3, 1, 2, 9, 0)),
        in_templates("5 parameter of type 2", 3, record(4, 0, 2, 0, 0)),
        in_templates("5 build of production 2", 8, record(5, 0, 2, 3, 1)),
        of_templates("5 field of its own record's type", &own),
        of_templates("5 expand of template 1", &later),
    ]
}

fn classes() -> Vec<Case> {
    let bounds = record(1, 0, 5, 4, 2);
    vec![
        in_grammar("6 class with least above most", 0, bounds),
        in_grammar("6 range with lowest above highest", 1, range(0x62, 0x61)),
        in_grammar("6 range to U+110000", 2, range(0x370, 0x11_0000)),
        in_grammar("0 range to U+10FFFF", 2, range(0x370, 0x10_FFFF)),
    ]
}

/// A literal of two bytes in place of the place.
fn literal(text: &str) -> Records {
    templates()
        .with(9, record(5, 1, 2, 2, 0))
        .with(10, text_units(text.as_bytes())[0])
}

fn lexemes() -> Vec<Case> {
    let third = pair().with(8, step(0, 2));
    vec![
        of_templates("7 literal \"AB\"", &literal("AB")),
        of_templates("0 literal \"ab\"", &literal("ab")),
        in_templates("7 place on variable 0", 10, path(0)),
        in_templates("7 place on variable 2", 10, path(2)),
        in_templates("7 step into a text", 10, step(1, 0)),
        of_templates("7 step to field 2 of two", &third),
    ]
}

fn positions() -> Vec<Case> {
    let childless = template(entries([]));
    let sequence = template(Node::sequence([]));
    let on_list = choice().with(1, record(1, 2, 0, 0, 0));
    // The second branch is of nonterminal 1.
    let untaken = choice().with(8, record(5, 0, 1, 5, 1));
    vec![
        of_templates("7 no template", &types().records().into()),
        in_templates("7 for over variable 1", 7, path(1)),
        in_templates("7 item of nonterminal 0", 8, record(5, 0, 0, 3, 1)),
        of_templates("7 build with no child", &childless),
        of_templates("7 sequence as a body", &sequence),
        of_templates("7 if on a list", &on_list),
        Set::of(&grammar(), &untaken, &yes_no(true)).case("7 branch that is not taken"),
    ]
}

fn arguments() -> Vec<Case> {
    let twice = template(Node::expand(0, [Path::variable(0), Path::variable(0)]));
    vec![
        of_templates("0 expand of template 1", &two_templates(1)),
        of_templates("7 equal type of another number", &two_templates(2)),
        of_templates("7 expand with two paths", &twice),
    ]
}

/// What is tried first is answered first, each number over grammar, templates, value before the
/// next.
fn order() -> Vec<Case> {
    let bounds = grammar().with(0, record(1, 0, 5, 4, 2));
    let named = grammar().with(12, record(4, 1, 1, 0, 0));
    let parameter = templates().with(3, record(4, 0, 2, 0, 0));
    let place = templates().with(10, path(0));
    let zeros = Records::from(vec![]).zeros(1);
    vec![
        Set::of(&bounds, &templates(), &zeros).case("3 value's layout, and bounds"),
        Set::of(&named, &templates(), &lists(200)).case("4 value's depth, and a name"),
        Set::of(&bounds, &parameter, &value()).case("5 templates' name, and bounds"),
        Set::of(&bounds, &place, &value()).case("6 bounds, and a place on variable 0"),
    ]
}
