//! Cases of variants, values that are a case of one, and matches (request g).

use crate::case::{Case, Lent, Set, PLENTY};
use crate::records::{path, Records};
use build::{record, Element, Grammar, Node, Path, Record, Templates, Value};

/// All of them.
#[must_use]
pub fn all() -> Vec<Case> {
    [
        finished(),
        limits_of_a_run(),
        values(),
        case_records(),
        variant_records(),
        match_records(),
        counts(),
        arms(),
        paths(),
        positions(),
        loops(),
        depths(),
    ]
    .concat()
}

/// Nonterminal 0: production 0 `(` 0 `)`, 1 `<` a word `>`, 2 `[` 0, .. `]`, 3 `-`. Class 0 has words of
/// up to four Latin letters.
fn grammar() -> Records {
    let keyword = |text: &str| Element::keyword(text);
    let mut grammar = Grammar::new();
    let word = grammar.class(1, 4, &[(0x61, 0x7A)]);
    grammar.production(0, [keyword("("), Element::Nonterminal(0), keyword(")")]);
    grammar.production(0, [keyword("<"), Element::Class(word), keyword(">")]);
    let row = Element::separated(0, ", ");
    grammar.production(0, [keyword("["), row, keyword("]")]);
    grammar.production(0, [keyword("-")]);
    grammar.records().into()
}

fn variable(number: u8) -> Path {
    Path::variable(number)
}

fn word(path: Path) -> Node {
    Node::build(1, [Node::place(path)])
}

fn dash() -> Node {
    Node::build(3, [])
}

fn row(items: impl IntoIterator<Item = Node>) -> Node {
    Node::build(2, [Node::sequence(items)])
}

/// Type 0, a word, 1, yes/no, 2, a record of both, and 3, a variant of 0, 2 and 1: records 0 to 8. The
/// template of one parameter has records 9 and 10, and this body from 11 on.
fn set(body: Node) -> Records {
    let mut templates = Templates::new();
    let text = templates.text(0);
    let yes_no = templates.yes_no();
    let both = templates.record([text, yes_no]);
    let variant = templates.variant([text, both, yes_no]);
    templates.template(0, [variant], body);
    templates.records().into()
}

/// A word, a word in brackets for the record, and a dash for yes/no.
fn three_arms() -> Node {
    let inner = Node::build(0, [word(variable(1).field(0))]);
    Node::by_case(variable(0), [word(variable(1)), inner, dash()])
}

fn first() -> Value {
    Value::case(0, Value::text("ab"))
}

fn second() -> Value {
    let both = [Value::text("cd"), Value::YesNo(true)];
    Value::case(1, Value::record(both))
}

/// The set of three arms on a value.
fn on(label: &str, value: &Value) -> Case {
    of(label, three_arms(), value)
}

/// A body on a value.
fn of(label: &str, body: Node, value: &Value) -> Case {
    Set::of(&grammar(), &set(body), &value.records().into()).case(label)
}

fn finished() -> Vec<Case> {
    let arms = || Node::by_case(variable(0), vec![dash(); 3]);
    let again = Node::by_case(variable(0), [arms(), dash(), arms()]);
    let pass = || Node::expand(0, [variable(0)]);
    let ends = Node::by_case(variable(0), [word(variable(1)), pass(), dash()]);
    vec![
        on("0 the first arm", &first()),
        on("0 the second arm", &second()),
        on("0 the last arm", &Value::case(2, Value::YesNo(false))),
        of("0 a match in a match", again, &first()),
        of("0 matches in a row", row([arms(), arms()]), &second()),
        of("0 an arm that isn't taken expands", ends.clone(), &first()),
        of("11 an arm that expands itself", ends, &second()),
        listed("0 a list of cases"),
    ]
}

/// A for over a list of cases; the arm of a list is a row in the row.
fn listed(label: &str) -> Case {
    let mut templates = Templates::new();
    let text = templates.text(0);
    let list = templates.list(text);
    let variant = templates.variant([text, list]);
    let all = templates.list(variant);
    let inner = row([Node::each(variable(2), word(variable(3)))]);
    let item = Node::by_case(variable(1), [word(variable(2)), inner]);
    templates.template(0, [all], row([Node::each(variable(0), item), dash()]));
    let words = [Value::text("a"), Value::text("bc")];
    let value = Value::list([
        Value::case(1, Value::list(words)),
        first(),
        Value::case(1, Value::list([])),
    ]);
    let (templates, value) = (templates.records().into(), value.records().into());
    Set::of(&grammar(), &templates, &value).case(label)
}

/// The second arm takes four steps and writes six bytes.
fn limits_of_a_run() -> Vec<Case> {
    let lent = |label: &str, fuel, room| {
        let templates = set(three_arms());
        let set = Set::of(&grammar(), &templates, &second().records().into());
        let numbers = PLENTY.numbers;
        let lent = Lent {
            fuel,
            room,
            numbers,
        };
        set.lent(label, lent)
    };
    vec![
        lent("10 no fuel for the match", 0, 64),
        lent("10 fuel for the match only", 1, 64),
        lent("10 fuel for the arm, too", 2, 64),
        lent("0 just enough fuel for the arm taken", 4, 64),
        lent("12 no room for the arm", 4, 0),
        lent("0 just enough room for the arm taken", 4, 6),
    ]
}

fn values() -> Vec<Case> {
    let text = || Value::text("ab");
    let deep = Value::case(1, Value::record([text(), text()]));
    vec![
        on("8 a text for a variant", &text()),
        on("8 yes for a variant", &Value::YesNo(true)),
        on("8 a list for a variant", &Value::list([first()])),
        on("8 a record for a variant", &Value::record([text()])),
        on("8 case 3 of three", &Value::case(3, text())),
        on("8 case 255 of three", &Value::case(255, text())),
        on("8 the content of another case", &Value::case(1, text())),
        on("8 a case for a content", &Value::case(0, first())),
        on("8 a word too long", &Value::case(0, Value::text("abcde"))),
        on("8 a wrong field in a content", &deep),
    ]
}

/// The second case's records: the case, the record, the text and its unit, the yes.
fn with_value(label: &str, change: impl FnOnce(Vec<Record>) -> Vec<Record>) -> Case {
    let records = change(second().records());
    Set::of(&grammar(), &set(three_arms()), &records.into()).case(label)
}

/// The same with another record for the case.
fn with_case(label: &str, case: Record) -> Case {
    with_value(label, |mut records| {
        records[0] = case;
        records
    })
}

fn case_records() -> Vec<Case> {
    vec![
        with_case("3 case with b 1", record(5, 1, 1, 5, 0)),
        with_case("3 case with d 1", record(5, 1, 0, 5, 1)),
        with_case("3 case with d 256", record(5, 1, 0, 5, 256)),
        with_case("3 case with size 0", record(5, 1, 0, 0, 0)),
        with_case("3 case with size 1", record(5, 1, 0, 1, 0)),
        with_case("3 case with size 4", record(5, 1, 0, 4, 0)),
        with_case("3 case with size 6", record(5, 1, 0, 6, 0)),
        with_case("3 value of kind 6", record(6, 1, 0, 5, 0)),
        with_value("3 case without a child", |_| vec![record(5, 0, 0, 1, 0)]),
        with_value("3 case with two children", |mut records| {
            records[0] = record(5, 1, 0, 6, 0);
            records.push(record(2, 1, 0, 0, 0));
            records
        }),
    ]
}

/// The set with the record at a place replaced. The variant is record 5, its cases 6 to 8.
fn with_record(label: &str, place: usize, record: Record) -> Case {
    let templates = set(three_arms()).with(place, record);
    Set::of(&grammar(), &templates, &first().records().into()).case(label)
}

fn variant_records() -> Vec<Case> {
    vec![
        with_record("3 variant with b 1", 5, record(1, 4, 1, 0, 3)),
        with_record("3 variant with c 1", 5, record(1, 4, 0, 1, 3)),
        with_record("3 variant with a case too few", 5, record(1, 4, 0, 0, 2)),
        with_record("3 variant with a case too many", 5, record(1, 4, 0, 0, 4)),
        with_record("3 variant under form 5", 5, record(1, 5, 0, 0, 3)),
        with_record("3 case of a variant with a 1", 6, record(2, 1, 0, 0, 0)),
        with_record("3 case of a variant with c 1", 6, record(2, 0, 0, 1, 0)),
        with_record("5 case of its own variant", 6, record(2, 0, 3, 0, 0)),
        with_record("5 last case of a later type", 8, record(2, 0, 4, 0, 0)),
        with_record("5 case of type 65535", 7, record(2, 0, 65_535, 0, 0)),
    ]
}

/// The match is record 11 and has 10 records; its path is record 12.
fn match_records() -> Vec<Case> {
    vec![
        with_record("3 match with b 1", 11, record(5, 7, 1, 10, 3)),
        with_record("3 match with size 9", 11, record(5, 7, 0, 9, 3)),
        with_record("3 match with an arm too few", 11, record(5, 7, 0, 10, 2)),
        with_record("3 match with an arm too many", 11, record(5, 7, 0, 10, 4)),
        with_record("3 match without a path", 12, record(5, 3, 0, 1, 0)),
        with_record("3 match under form 8", 11, record(5, 8, 0, 10, 3)),
        with_record("7 match on a variable that isn't there", 12, path(1)),
    ]
}

/// A variant of so many words, and an arm for each; the case of a number.
fn counted(label: &str, count: usize, number: u8) -> Case {
    let mut templates = Templates::new();
    let text = templates.text(0);
    let variant = templates.variant(vec![text; count]);
    let arms = (0..count).map(|arm| match arm + 1 == count {
        true => word(variable(1)),
        false => dash(),
    });
    templates.template(0, [variant], Node::by_case(variable(0), arms));
    let value = Value::case(number, Value::text("ab")).records().into();
    Set::of(&grammar(), &templates.records().into(), &value).case(label)
}

fn counts() -> Vec<Case> {
    vec![
        counted("3 a variant of no case", 0, 0),
        counted("0 a variant of one case", 1, 0),
        counted("8 case 1 of one", 1, 1),
        counted("0 the last of 255 cases", 255, 254),
        counted("8 case 255 of 255", 255, 255),
        counted("0 the last but one of 256 cases", 256, 254),
        counted("0 the last of 256 cases", 256, 255),
        counted("3 a variant of 257 cases", 257, 0),
    ]
}

/// A match with these arms, on the first case.
fn by_case(label: &str, arms: impl IntoIterator<Item = Node>) -> Case {
    of(label, Node::by_case(variable(0), arms), &first())
}

fn arms() -> Vec<Case> {
    let fits = || word(variable(1));
    let field = || word(variable(1).field(0));
    let bad = || Node::literal("ab");
    vec![
        by_case("7 no arm", []),
        by_case("7 two arms for three cases", [fits(), field()]),
        by_case("7 four arms for three cases", vec![dash(); 4]),
        by_case("7 an arm too many, and a bad one", vec![bad(); 4]),
        by_case("7 arms exchanged", [field(), fits(), dash()]),
        by_case("7 an arm that isn't taken", [fits(), fits(), dash()]),
        by_case("7 the last arm", [fits(), field(), fits()]),
        by_case("7 a literal as an arm", [fits(), bad(), dash()]),
        by_case(
            "7 a for as an arm",
            [Node::each(variable(0), dash()), field(), dash()],
        ),
        by_case(
            "7 a sequence as an arm",
            [Node::sequence([dash()]), field(), dash()],
        ),
        of(
            "7 a content behind its match",
            row([three_arms(), word(variable(1))]),
            &first(),
        ),
    ]
}

/// A word, yes/no, a list, a record and a variant of one case in a record, and a node on one of them.
fn fields(label: &str, node: impl FnOnce(fn(u8) -> Path) -> Node) -> Case {
    let mut templates = Templates::new();
    let text = templates.text(0);
    let yes_no = templates.yes_no();
    let list = templates.list(text);
    let inner = templates.record([text]);
    let variant = templates.variant([text]);
    let whole = templates.record([text, yes_no, list, inner, variant]);
    let body = node(|field| Path::variable(0).field(field));
    templates.template(0, [whole], body);
    let value = Value::record([
        Value::text("ab"),
        Value::YesNo(true),
        Value::list([]),
        Value::record([Value::text("cd")]),
        Value::case(0, Value::text("ef")),
    ]);
    let (templates, value) = (templates.records().into(), value.records().into());
    Set::of(&grammar(), &templates, &value).case(label)
}

fn paths() -> Vec<Case> {
    let on = |path| Node::by_case(path, [word(variable(1))]);
    vec![
        fields("0 match on a variant in a record", |field| on(field(4))),
        fields("7 match on a text", |field| on(field(0))),
        fields("7 match on yes", |field| on(field(1))),
        fields("7 match on a list", |field| on(field(2))),
        fields("7 match on a record", |field| on(field(3))),
        fields("7 match on a field that isn't there", |field| on(field(5))),
        fields("7 match on a step into a variant", |field| {
            on(field(4).field(0))
        }),
        fields("7 place of a step into a variant", |field| {
            word(field(4).field(0))
        }),
        fields("7 place of a variant", |field| word(field(4))),
        fields("7 if on a variant", |field| {
            Node::either(field(4), dash(), dash())
        }),
        fields("7 for over a variant", |field| {
            row([Node::each(field(4), dash())])
        }),
    ]
}

fn positions() -> Vec<Case> {
    let in_place = |label: &str, production| {
        let body = Node::build(production, [three_arms()]);
        of(label, body, &first())
    };
    vec![
        in_place("0 match for a nonterminal", 0),
        in_place("7 match for a class", 1),
        in_place("7 match for a repetition", 2),
    ]
}

/// So many loops and arms in turn, on a list of variants of it, around a dash.
fn nested(label: &str, count: u8) -> Case {
    let mut templates = Templates::new();
    let list = templates.list(1);
    let variant = templates.variant([list]);
    let turn = |body, number| match number % 2 {
        0 => Node::by_case(variable(number), [body]),
        _ => row([Node::each(variable(number), body)]),
    };
    let body = (0..count).rev().fold(dash(), turn);
    templates.template(0, [variant], body);
    let value = Value::case(0, Value::list([])).records().into();
    Set::of(&grammar(), &templates.records().into(), &value).case(label)
}

fn loops() -> Vec<Case> {
    let arms = |body: &Node| Node::by_case(variable(0), vec![body.clone(); 3]);
    let beside = row(vec![arms(&dash()); 17]);
    vec![
        nested("0 15 loops and arms", 15),
        nested("0 16 loops and arms", 16),
        nested("4 17 loops and arms", 17),
        nested("4 18 loops and arms", 18),
        of("0 17 matches in a row", beside, &first()),
    ]
}

/// A match below so many builds, and an expand of a template with one.
fn depths() -> Vec<Case> {
    let below = |levels, body| (0..levels).fold(body, |body, _| Node::build(0, [body]));
    let cases = |label: &str, levels: usize| {
        let mut templates = Templates::new();
        let text = templates.text(0);
        let whole = (0..levels).fold(text, |content, _| templates.variant([content]));
        templates.template(0, [whole], dash());
        let content = Value::text("ab");
        let value = (0..levels).fold(content, |content, _| Value::case(0, content));
        let (templates, value) = (templates.records().into(), value.records().into());
        Set::of(&grammar(), &templates, &value).case(label)
    };
    let arm_at = |label: &str, depth: usize| {
        let last = Node::by_case(variable(0), vec![dash(); 3]);
        of(label, below(depth - 2, last), &first())
    };
    let expanded = |label: &str, depth: usize| {
        let mut templates = Templates::new();
        let text = templates.text(0);
        let variant = templates.variant([text]);
        let further = Node::expand(1, [variable(0)]);
        templates.template(0, [variant], below(depth - 3, further));
        templates.template(0, [variant], Node::by_case(variable(0), [dash()]));
        let (templates, value) = (templates.records().into(), first().records().into());
        let room = 512;
        let set = Set::of(&grammar(), &templates, &value);
        set.lent(label, Lent { room, ..PLENTY })
    };
    vec![
        cases("0 a text below 199 cases", 199),
        cases("4 a text below 200 cases", 200),
        arm_at("12 an arm at depth 200", 200),
        arm_at("4 an arm at depth 201", 201),
        expanded("0 an expanded arm at depth 200", 200),
        expanded("11 an expanded arm at depth 201", 201),
    ]
}
