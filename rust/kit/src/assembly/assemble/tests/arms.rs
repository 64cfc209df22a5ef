//! Variants, the arms of matches, and the cases of values.

use super::*;

const MEDIA: &str = r#"class c 0 to 9 { 'a'-'z' } production p of n = "(" c ")" production q of n = "[" c "]"
    type t = text c type f = yesno type r = record { t: t }
    type v = variant { one: t "t-w-o": r value: f }
    template main (v: v) of n = match v (
        "t-w-o" as x then build q (place x.t)
        "value" as x then if x then build p (literal "y") else build p (literal "n")
        one as x then build p (place x))
    value case one "a""#;

#[test]
fn arms_stand_in_the_order_of_the_cases() {
    for (value, text) in [
        ("case one \"a\"", "(a)"),
        ("case \"t-w-o\" { t: \"b\" }", "[b]"),
        ("case value yes", "(y)"),
        ("case 2 no", "(n)"),
    ] {
        let description = MEDIA.replacen("case one \"a\"", value, 1);
        assert_eq!(text_of(&description), text, "{value}");
    }
    let numbers = MEDIA
        .replacen("\"t-w-o\" as", "1 as", 1)
        .replacen("one as", "0 as", 1);
    assert_eq!(assemble(&numbers), assemble(MEDIA));
}

/// The path, then the arms: of type 3's cases 0, 1 and 2.
#[test]
fn the_records_of_a_match_and_of_a_case() {
    let streams = assemble(MEDIA).expect("streams");
    let records = Found::read(&streams.templates, None).records;
    assert_eq!(records[4].0, [1, 4, 0, 0, 0, 0, 3, 0]);
    assert_eq!(
        records[5..8].iter().map(|it| it.b()).collect::<Vec<_>>(),
        [0, 2, 1]
    );
    assert_eq!(records[10].0, [5, 7, 0, 0, 16, 0, 3, 0]);
    assert_eq!(records[11].0, [6, 0, 0, 0, 0, 0, 0, 0]);
    let builds = [12, 15, 20].map(|at: usize| (records[at].a(), records[at].b()));
    assert_eq!(builds, [(0, 0), (0, 1), (0, 0)]);
    let value = Found::read(&streams.value, None).records;
    assert_eq!(value[0].0, [5, 0, 0, 0, 3, 0, 0, 0]);
    assert_eq!(value[1].0, [1, 0, 1, 0, 2, 0, 0, 0]);
}

/// All mistakes are found at once, in the arms as well.
#[test]
fn mistakes_in_arms() {
    let said = |description: &str| -> Vec<String> {
        let mistakes = assemble(description).expect_err("mistakes");
        mistakes.into_iter().map(|it| it.message).collect()
    };
    let wrong = MEDIA
        .replacen("one as x", "on as x", 1)
        .replacen("place x.t", "place x.u", 1)
        .replacen("if x then", "if y then", 1);
    assert_eq!(
        said(&wrong),
        [
            "the type `v` has no case `on`: did you mean `one`?",
            "the type `r` has no field `u`",
            "no variable is named `y` here: known are `v`, `x`",
        ]
    );
    assert_eq!(
        said(&MEDIA.replacen("match v", "match 3", 1))[0],
        "case `t-w-o` is of no known type: give it by its number"
    );
    let cases: String = (0..257).map(|it| format!("c{it}: t ")).collect();
    assert_eq!(
        said(&MEDIA.replacen(
            "type f",
            &format!("type w = variant {{ {cases} }} type f"),
            1
        )),
        ["this is a case past the 256 that fit"]
    );
    let arms: String = (0..3).map(|_| "0 as x then build p (place x) ").collect();
    let start = MEDIA.find("match v (").expect("a match");
    let end = MEDIA.find("\n    value").expect("a value");
    let twice = format!("{}match v ({arms}){}", &MEDIA[..start], &MEDIA[end..]);
    assert_eq!(said(&twice), ["case `0` has an arm already, at line 4"; 2]);
}

/// Past what a stream holds no name is looked up, and so none is missing.
#[test]
fn very_many_matches_are_told_to_be_too_many() {
    let arms = "match v (one as x then build p (place x) \"t-w-o\" as x then build q (place x.t) \
                \"value\" as x then build p (literal \"n\"))\n";
    let start = MEDIA.find("match v (").expect("a match");
    let end = MEDIA.find("\n    value").expect("a value");
    let body = format!("build p (sequence ({}))", arms.repeat(2_000));
    let mistakes = assemble(&format!("{}{body}{}", &MEDIA[..start], &MEDIA[end..]));
    let mistakes = mistakes.expect_err("too many records");
    assert_eq!(mistakes.len(), 1);
    assert!(
        mistakes[0].message.starts_with("the templates takes "),
        "{}",
        mistakes[0].message
    );
}
