//! Request g: a value is one of several cases, and a match takes the arm of its case.

use build::{
    blocks, record, Element, Grammar, Node, Path, Record, Templates, Value, TEMPLATES, VALUE,
};
use reference::{check, evaluate};

/// Nonterminal 0: production 0 `(` 0 `)`, 1 `<` a word `>`, 2 `[` 0, .. `]`, 3 `-`. Class 0: words of
/// up to four letters; class 1: others.
fn grammar() -> Vec<u8> {
    let keyword = |text: &str| Element::keyword(text);
    let mut grammar = Grammar::new();
    let word = grammar.class(1, 4, &[(0x61, 0x7A)]);
    grammar.class(1, 4, &[(0x370, 0x3FF)]);
    grammar.production(0, [keyword("("), Element::Nonterminal(0), keyword(")")]);
    grammar.production(0, [keyword("<"), Element::Class(word), keyword(">")]);
    let row = Element::separated(0, ", ");
    grammar.production(0, [keyword("["), row, keyword("]")]);
    grammar.production(0, [keyword("-")]);
    grammar.stream()
}

fn variable(number: u8) -> Path {
    Path::variable(number)
}

fn word(path: Path) -> Node {
    Node::build(1, [Node::place(path)])
}

fn dash() -> Node {
    Node::build(3, [])
}

fn row(items: impl IntoIterator<Item = Node>) -> Node {
    Node::build(2, [Node::sequence(items)])
}

/// The answer of a run of streams with much fuel, and the text that it left.
fn run(templates: &[u8], value: &[u8]) -> (String, String) {
    let (mut out, mut scratch) = ([0; 2_000], [0; 4_800]);
    let answer = evaluate(&grammar(), templates, value, 9_999, &mut out, &mut scratch);
    let text = String::from_utf8_lossy(&out[..answer.bytes]);
    (answer.to_string(), text.into_owned())
}

/// A set of types 0, text of words, 1, text of other letters, 2, yes/no, 3, a record of 0 and 2, and 4,
/// a variant of 0, 3 and 0. Template 0 takes the variant; its body is record 12.
fn set(body: Node) -> Templates {
    let mut templates = Templates::new();
    templates.text(0);
    templates.text(1);
    templates.yes_no();
    templates.record([0, 2]);
    let variant = templates.variant([0, 3, 0]);
    templates.template(0, [variant], body);
    templates
}

/// The body's record in such a set.
const BODY: u16 = 5 + 2 + 3 + 2;

fn rendered(body: Node, value: &Value) -> (String, String) {
    run(&set(body).stream(), &value.stream())
}

fn checked(templates: &Templates) -> String {
    check(&grammar(), &templates.stream()).to_string()
}

fn three_arms() -> Node {
    let inner = Node::build(0, [word(variable(1).field(0))]);
    Node::by_case(variable(0), [word(variable(1)), inner, dash()])
}

fn second(text: &str) -> Value {
    Value::case(1, Value::record([Value::text(text), Value::YesNo(true)]))
}

#[test]
fn the_arm_of_the_case_is_taken() {
    let answer = |text: &str, answer: &str| (answer.to_string(), text.to_string());
    let first = Value::case(0, Value::text("ab"));
    assert_eq!(rendered(three_arms(), &first), answer("<ab>", "0 0 0 3 4"));
    assert_eq!(
        rendered(three_arms(), &second("cd")),
        answer("(<cd>)", "0 0 0 4 6")
    );
    let third = Value::case(2, Value::text("ab"));
    assert_eq!(rendered(three_arms(), &third), answer("-", "0 0 0 2 1"));
}

#[test]
fn a_value_must_be_a_case_that_is_there() {
    let refused = |value: Value| rendered(three_arms(), &value).0;
    let text = || Value::text("ab");
    assert_eq!(refused(text()), "8 3 0 0 0");
    assert_eq!(refused(Value::list([text()])), "8 3 0 0 0");
    assert_eq!(refused(Value::record([text()])), "8 3 0 0 0");
    for number in [3, 4, 255] {
        assert_eq!(refused(Value::case(number, text())), "8 3 0 0 0");
    }
    assert_eq!(refused(Value::case(1, text())), "8 3 1 0 0");
    assert_eq!(refused(Value::case(2, Value::text("ABC"))), "8 3 1 0 0");
    assert_eq!(refused(Value::case(0, Value::text("λ"))), "8 3 1 0 0");
    assert_eq!(refused(second("too long")), "8 3 2 0 0");
    let again = Value::case(0, Value::case(0, text()));
    assert_eq!(refused(again), "8 3 1 0 0");
}

/// What a check answers where template 0's body is this match.
fn typed(arms: impl IntoIterator<Item = Node>) -> String {
    checked(&set(Node::by_case(variable(0), arms)))
}

#[test]
fn as_many_arms_as_cases() {
    for count in 0..6 {
        let expected = if count == 3 {
            "0 0 0 0 0"
        } else {
            "7 2 12 0 0"
        };
        assert_eq!(typed(vec![dash(); count]), expected, "{count} arms");
    }
    // The match is refused before what is in its arms.
    let bad = Node::literal("a");
    assert_eq!(typed([bad.clone(), bad]), "7 2 12 0 0");
}

#[test]
fn every_arm_sees_the_content_of_its_case() {
    let fits = || word(variable(1));
    let record = || word(variable(1).field(0));
    assert_eq!(typed([fits(), record(), fits()]), "0 0 0 0 0");
    // Swapped, and in each place in turn what fits elsewhere only: the place of an arm's place node.
    assert_eq!(typed([record(), fits(), fits()]), "7 2 15 0 0");
    assert_eq!(typed([fits(), fits(), fits()]), "7 2 18 0 0");
    assert_eq!(typed([fits(), record(), record()]), "7 2 21 0 0");
    // Neither the arms beside it nor what stands behind the match see it.
    assert_eq!(typed([dash(), dash(), word(variable(2))]), "7 2 17 0 0");
    let behind = row([
        Node::by_case(variable(0), vec![dash(); 3]),
        word(variable(1)),
    ]);
    assert_eq!(checked(&set(behind)), "7 2 20 0 0");
}

#[test]
fn a_match_asks_for_a_variant() {
    let mut templates = Templates::new();
    let text = templates.text(0);
    let yes_no = templates.yes_no();
    let list = templates.list(text);
    let one = templates.variant([text]);
    let fields = [text, yes_no, list, one];
    let record = templates.record(fields);
    let body_at = |path: Path| {
        let mut templates = templates.clone();
        templates.template(0, [record], Node::by_case(path, [dash()]));
        checked(&templates)
    };
    // The types take 10 records, so the body is record 12.
    for field in [0, 1, 2, 4, 255] {
        assert_eq!(body_at(variable(0).field(field)), "7 2 12 0 0", "{field}");
    }
    assert_eq!(body_at(variable(0)), "7 2 12 0 0");
    assert_eq!(body_at(variable(1)), "7 2 12 0 0");
    assert_eq!(body_at(variable(0).field(3)), "0 0 0 0 0");
    // No path steps into a variant.
    assert_eq!(body_at(variable(0).field(3).field(0)), "7 2 12 0 0");
}

#[test]
fn other_nodes_do_not_take_a_variant() {
    let either = Node::either(variable(0), dash(), dash());
    assert_eq!(checked(&set(either)), "7 2 12 0 0");
    let each = row([Node::each(variable(0), dash())]);
    assert_eq!(checked(&set(each)), "7 2 14 0 0");
    assert_eq!(checked(&set(word(variable(0)))), "7 2 13 0 0");
    assert_eq!(checked(&set(word(variable(0).field(0)))), "7 2 13 0 0");
}

#[test]
fn a_match_stands_where_an_if_may_stand() {
    let arms = || vec![dash(); 3];
    let node = || Node::by_case(variable(0), arms());
    for body in [
        Node::build(0, [node()]),
        row([node(), node()]),
        Node::by_case(variable(0), [node(), node(), node()]),
    ] {
        assert_eq!(checked(&set(body)), "0 0 0 0 0");
    }
    // Not for a class or a repetition.
    assert_eq!(checked(&set(Node::build(1, [node()]))), "7 2 13 0 0");
    assert_eq!(checked(&set(Node::build(2, [node()]))), "7 2 13 0 0");
}

#[test]
fn arms_are_asked_for_the_nonterminal() {
    let mut templates = Templates::new();
    let list = templates.list(1);
    let variant = templates.variant([list]);
    templates.template(0, [variant], dash());
    let body = |arm: Node| {
        let mut templates = templates.clone();
        templates.templates[0].body = row([Node::by_case(variable(0), [arm])]);
        checked(&templates)
    };
    // A list, a variant of one case and a head with its parameter: the arm is record 9.
    let each = || Node::each(variable(1), dash());
    assert_eq!(body(each()), "7 2 9 0 0");
    assert_eq!(body(Node::sequence([dash()])), "7 2 9 0 0");
    assert_eq!(body(Node::literal("a")), "7 2 9 0 0");
    assert_eq!(body(Node::place(variable(1))), "7 2 9 0 0");
    assert_eq!(body(row([each()])), "0 0 0 0 0");
}

#[test]
fn a_content_is_passed_on() {
    let arms = [
        Node::expand(1, [variable(1)]),
        Node::expand(1, [variable(1).field(0)]),
        Node::expand(2, [variable(0), variable(1)]),
    ];
    let mut templates = set(Node::by_case(variable(0), arms));
    templates.template(0, [0], word(variable(0)));
    templates.template(0, [4, 0], word(variable(1)));
    let text = |value: &Value| run(&templates.stream(), &value.stream());
    let answer = |steps: &str, text: &str| (steps.to_string(), text.to_string());
    let first = Value::case(0, Value::text("ab"));
    assert_eq!(text(&first), answer("0 0 0 4 4", "<ab>"));
    assert_eq!(text(&second("cd")), answer("0 0 0 4 4", "<cd>"));
    let third = Value::case(2, Value::text("ef"));
    assert_eq!(text(&third), answer("0 0 0 4 4", "<ef>"));
}

#[test]
fn a_match_is_one_item_of_its_sequence() {
    let mut templates = Templates::new();
    let text = templates.text(0);
    let list = templates.list(text);
    let variant = templates.variant([text, list]);
    let all = templates.list(variant);
    let inner = row([Node::each(variable(2), word(variable(3)))]);
    let item = Node::by_case(variable(1), [word(variable(2)), inner]);
    templates.template(0, [all], row([Node::each(variable(0), item), dash()]));
    let value = Value::list([
        Value::case(0, Value::text("a")),
        Value::case(1, Value::list([Value::text("b"), Value::text("c")])),
        Value::case(1, Value::list([])),
    ]);
    let (answer, text) = run(&templates.stream(), &value.stream());
    assert_eq!(text, "[<a>, [<b>, <c>], [], -]");
    // A build, a sequence, a for and a dash; three matches; two steps of the first, seven of the
    // second and three of the third arm.
    assert_eq!(
        answer,
        format!("0 0 0 {} {}", 4 + 3 + 2 + 7 + 3, text.len())
    );
}

/// A set whose types take so many cases of text.
fn cases(count: usize) -> Templates {
    let mut templates = Templates::new();
    let text = templates.text(0);
    let variant = templates.variant(vec![text; count]);
    let arms = vec![word(variable(1)); count];
    templates.template(0, [variant], Node::by_case(variable(0), arms));
    templates
}

#[test]
fn a_variant_has_1_to_256_cases() {
    for count in [1, 2, 255, 256] {
        let templates = cases(count);
        assert_eq!(checked(&templates), "0 0 0 0 0", "{count}");
        let last = (count - 1) as u8;
        let value = Value::case(last, Value::text("z"));
        let (answer, text) = run(&templates.stream(), &value.stream());
        assert_eq!((&answer[..], &text[..]), ("0 0 0 3 3", "<z>"), "{count}");
        if count < 256 {
            let past = Value::case(last + 1, Value::text("z"));
            let (answer, _) = run(&templates.stream(), &past.stream());
            assert_eq!(answer, "8 3 0 0 0", "{count}");
        }
    }
    for count in [0, 257, 300, 512] {
        assert_eq!(checked(&cases(count)), "3 2 0 0 0", "{count}");
    }
}

#[test]
fn a_case_names_an_earlier_type() {
    for (named, answer) in [
        (0, "0 0 0 0 0"),
        (1, "5 2 3 0 0"),
        (2, "5 2 3 0 0"),
        (9, "5 2 3 0 0"),
    ] {
        let mut templates = Templates::new();
        let text = templates.text(0);
        let variant = templates.variant([text, named]);
        templates.list(variant);
        templates.template(0, [variant], dash());
        assert_eq!(checked(&templates), answer, "{named}");
    }
}

/// The answer of a run with the records of the value changed.
fn with_value(change: impl FnOnce(&mut Vec<Record>)) -> String {
    let mut records = second("cd").records();
    change(&mut records);
    run(&set(three_arms()).stream(), &blocks(VALUE, &records)).0
}

#[test]
fn a_case_is_laid_out_with_one_child() {
    let broken = "3 3 0 0 0";
    assert_eq!(with_value(|_| {}), "0 0 0 4 6");
    for byte in [2, 3, 6, 7] {
        assert_eq!(with_value(|records| records[0][byte] = 1), broken, "{byte}");
    }
    for size in [0, 1, 4, 6] {
        assert_eq!(with_value(|records| records[0][4] = size), broken, "{size}");
    }
    let two = |records: &mut Vec<Record>| {
        records.push(record(2, 1, 0, 0, 0));
        records[0][4] += 1;
    };
    assert_eq!(with_value(two), broken);
    let childless = |records: &mut Vec<Record>| *records = vec![record(5, 0, 0, 1, 0)];
    assert_eq!(with_value(childless), broken);
    let at_the_end = |records: &mut Vec<Record>| {
        *records = vec![record(5, 0, 0, 64, 0); 63];
    };
    assert_eq!(with_value(at_the_end), broken);
}

/// The answer of a check with the records of the templates changed.
fn with_templates(change: impl FnOnce(&mut Vec<Record>)) -> String {
    let mut records = set(three_arms()).records();
    change(&mut records);
    check(&grammar(), &blocks(TEMPLATES, &records)).to_string()
}

#[test]
fn the_layout_of_variants_and_matches() {
    let (broken, variant, body) = ("3 2 0 0 0", 6, usize::from(BODY));
    assert_eq!(with_templates(|_| {}), "0 0 0 0 0");
    for byte in 2..6 {
        let b_or_c = |records: &mut Vec<Record>| records[variant][byte] = 1;
        assert_eq!(with_templates(b_or_c), broken, "{byte} of the variant");
    }
    for byte in [2, 3, 4, 5, 6, 7] {
        let field = |records: &mut Vec<Record>| records[body][byte] ^= 1;
        assert_eq!(with_templates(field), broken, "{byte} of the match");
    }
    for byte in [1, 4, 6] {
        let field = |records: &mut Vec<Record>| records[variant + 1][byte] = 1;
        assert_eq!(with_templates(field), broken, "{byte} of a case's type");
    }
    let no_path = |records: &mut Vec<Record>| records[body + 1][0] = 5;
    assert_eq!(with_templates(no_path), broken);
    let form_eight = |records: &mut Vec<Record>| records[body][1] = 8;
    assert_eq!(with_templates(form_eight), broken);
    let form_five = |records: &mut Vec<Record>| records[variant][1] = 5;
    assert_eq!(with_templates(form_five), broken);
}

/// A set of a list of itself and a variant of it, with so many loops and arms in turn around a dash.
fn loops_and_arms(count: u8, first_is_arm: bool) -> Templates {
    let mut templates = Templates::new();
    let list = templates.list(1);
    let variant = templates.variant([list]);
    let body = (0..count).rev().fold(dash(), |body, number| {
        match (number % 2 == 0) == first_is_arm {
            true => Node::by_case(variable(number), [body]),
            false => row([Node::each(variable(number), body)]),
        }
    });
    let declared = if first_is_arm { variant } else { list };
    templates.template(0, [declared], body);
    templates
}

#[test]
fn an_arm_counts_as_a_loop() {
    for first_is_arm in [true, false] {
        for count in [15, 16] {
            let set = loops_and_arms(count, first_is_arm);
            assert_eq!(checked(&set), "0 0 0 0 0", "{count}");
        }
        // The arm or body of the 17th, which is the last node, and in which nothing has a path.
        let set = loops_and_arms(17, first_is_arm);
        let last = set.records().len() - 1;
        assert_eq!(checked(&set), format!("4 2 {last} 0 0"));
    }
}

/// Arms stand beside one another: those of one match are one loop around each.
#[test]
fn arms_beside_one_another_do_not_add_up() {
    let arms = |body: &Node| Node::by_case(variable(0), vec![body.clone(); 3]);
    let nested = (0..4).fold(dash(), |body, _| arms(&body));
    assert_eq!(checked(&set(nested)), "0 0 0 0 0");
    let in_a_row = row(vec![arms(&dash()); 20]);
    assert_eq!(checked(&set(in_a_row)), "0 0 0 0 0");
}

#[test]
fn an_arm_is_one_deeper_than_its_match() {
    let below = |levels, body| (0..levels).fold(body, |body, _| Node::build(0, [body]));
    let arm = || Node::by_case(variable(0), vec![dash(); 3]);
    assert_eq!(checked(&set(below(198, arm()))), "0 0 0 0 0");
    // 199 builds, the match and its path stand before the first arm.
    assert_eq!(checked(&set(below(199, arm()))), "4 2 213 0 0");
    // At run time, too: an expand, a body of it, and a match.
    let mut templates = set(below(197, Node::expand(1, [variable(0)])));
    templates.template(0, [4], arm());
    let (answer, _) = run(
        &templates.stream(),
        &Value::case(0, Value::text("a")).stream(),
    );
    assert_eq!(answer, "0 0 0 200 395");
    let mut templates = set(below(198, Node::expand(1, [variable(0)])));
    templates.template(0, [4], arm());
    let (answer, _) = run(&templates.stream(), &Value::case(1, second("a")).stream());
    assert_eq!(answer, "8 3 1 0 0");
    let (answer, _) = run(&templates.stream(), &second("a").stream());
    // Behind 198 builds the expand, its path, a head and its parameter, the match, its path, an arm.
    assert_eq!(answer, format!("11 2 {} 201 198", 12 + 198 + 7));
}

#[test]
fn a_content_is_one_deeper_than_its_case() {
    for (cases, answer) in [(198, "0 0 0 1 1"), (199, "0 0 0 1 1"), (200, "4 3 200 0 0")] {
        let mut templates = Templates::new();
        let text = templates.text(0);
        let whole = (0..cases).fold(text, |content, _| templates.variant([content]));
        templates.template(0, [whole], dash());
        let content = Value::text("a");
        let value = (0..cases).fold(content, |content, _| Value::case(0, content));
        let (found, _) = run(&templates.stream(), &value.stream());
        assert_eq!(found, answer, "{cases}");
    }
}

/// Fuel ends a run ahead of the match, of the arm and of what is in it.
#[test]
fn a_match_is_one_step() {
    let value = Value::case(0, Value::text("ab")).stream();
    let templates = set(three_arms()).stream();
    for (fuel, answer) in [
        (0, "10 2 12 0 0"),
        (1, "10 2 14 1 0"),
        (2, "10 2 15 2 1"),
        (3, "0 0 0 3 4"),
    ] {
        let (mut out, mut scratch) = ([0; 9], [0; 4_800]);
        let found = evaluate(&grammar(), &templates, &value, fuel, &mut out, &mut scratch);
        assert_eq!(found.to_string(), answer);
    }
}
