//! Classes with the markup around them in another production.

use super::markup;
use crate::language::parser::parse;

/// What is said of productions with a class `t` of all characters and its escaped form, in lines from
/// the second on.
fn said(productions: &str) -> Vec<String> {
    let text = format!(
        "class t 0 to 9 {{ ' '-'~' }} class xml = escaped t class word 0 to 9 {{ 'a'-'z' '>' }}\n\
         {productions}"
    );
    markup(&parse(&text).expect("a description"))
        .iter()
        .map(ToString::to_string)
        .collect()
}

/// What is said of the class `t` in content.
fn content(line: usize, column: usize, between: &str) -> String {
    format!(
        "line {line}, column {column}: class `t` admits `&` and `<` here, {between}, \
         where they would be read as markup: ask for its escaped form `xml`"
    )
}

const NONE: [&str; 0] = [];

/// Where both sides are in the production `p`.
const IN_P: &str = "where production `p` has it between `<a>` and `</a>`";

#[test]
fn around_a_nonterminal() {
    assert_eq!(
        said("production p of p = \"<a>\" q \"</a>\"\nproduction q of q = t"),
        [content(3, 21, IN_P)]
    );
    assert_eq!(
        said("production q of q = word \", \" t\nproduction p of p = \"<a>\" q \"</a>\""),
        [content(
            2,
            31,
            "where production `p` has it between `<a>..,` and `</a>`"
        )]
    );
}

#[test]
fn around_a_repetition() {
    for uses in ["q*(\", \")", "q*", "q*(\"\")", "q*(\"<br/>\")", "word q* q"] {
        let text = format!("production p of p = \"<a>\" {uses} \"</a>\"\nproduction q of q = t");
        let said = said(&text);
        assert_eq!(said.len(), 1, "{uses} {said:?}");
        assert!(said[0].starts_with("line 3, column 21: class `t` "));
    }
    assert_eq!(
        said("production p of p = \"<a>\" q*(\", \") \"</a>\"\nproduction q of q = t"),
        [content(3, 21, IN_P)]
    );
}

#[test]
fn one_side_in_the_users_production() {
    assert_eq!(
        said("production p of p = q \"</t>\"\nproduction q of q = \"<t>\" t"),
        [content(
            3,
            27,
            "between `<t>` and the `</t>` of production `p`"
        )]
    );
    assert_eq!(
        said("production p of p = \"<t>\" q\nproduction q of q = t \"</t>\""),
        [content(
            3,
            21,
            "between the `<t>` of production `p` and `</t>`"
        )]
    );
}

#[test]
fn the_value_of_an_attribute() {
    assert_eq!(
        said("production p of p = \"<a href=\\\"\" q \"\\\"/>\"\nproduction q of q = t"),
        [
            "line 3, column 21: class `t` admits `&`, `<` and `\"` here, where production `p` has it \
             between `<a href=\"` and `\"`, where `&` and `<` would be read as markup and `\"` would end \
             the value: ask for its escaped form `xml`"
        ]
    );
}

#[test]
fn a_tag_outside_its_values() {
    assert_eq!(
        said("production p of p = \"<a \" q \"/>\"\nproduction q of q = word"),
        [
            "line 3, column 21: class `word` admits `>` here, where production `p` has it between `<a` \
             and `/>`, where it would be read as markup, and in a tag outside its values so would an \
             escaped form: leave it out of the class's ranges"
        ]
    );
}

#[test]
fn separators_are_around_items() {
    assert_eq!(
        said("production p of p = q*(\"<br/>\")\nproduction q of q = t"),
        [content(
            3,
            21,
            "where production `p` has it between `<br/>` and `<br/>`"
        )]
    );
    assert_eq!(
        said("production p of p = q*(\"<br/>\")\nproduction q of q = \"<i>\" t"),
        [content(
            3,
            27,
            "between `<i>` and the `<br/>` of production `p`"
        )]
    );
}

#[test]
fn items_are_around_items() {
    assert_eq!(
        said("production p of p = q*\nproduction q of q = \"<li>\" t"),
        [content(3, 28, "between `<li>` and `<li>`")]
    );
    assert_eq!(
        said("production p of p = q*(\", \")\nproduction q of q = t \"<br/>\""),
        [content(3, 21, "between `<br/>,` and `<br/>`")]
    );
}

#[test]
fn neighbours_that_are_nonterminals() {
    let tags = "production a of a = \"<a>\" production b of b = \"</a>\"";
    let between = "between the `<a>` of production `a` and the `</a>` of production `b`";
    assert_eq!(
        said(&format!("production p of p = a t b\n{tags}")),
        [content(2, 23, between)]
    );
    assert_eq!(
        said(&format!(
            "production p of p = a q b production q of q = t\n{tags}"
        )),
        [content(2, 47, between)]
    );
    let ended = "production p of p = \"<a\" e q \"</a>\" production q of q = word\n\
                 production e of e = \">\" production f of e = \" b='c'>\"";
    assert_eq!(said(ended), NONE);
}

#[test]
fn the_first_dangerous_use_is_named() {
    assert_eq!(
        said(
            "production p of p = q \", \" q \"<b>\" r \"</b>\" \"<a>\" q \"</a>\" \"<c>\" q \"</c>\"\n\
             production r of r = q production q of q = t"
        ),
        [content(3, 43, IN_P)]
    );
}

#[test]
fn its_own_markup_is_said_first() {
    assert_eq!(
        said("production p of p = \"<a>\" q \"</a>\"\nproduction q of q = \"<b>\" t \"</b>\""),
        [content(3, 27, "between `<b>` and `</b>`")]
    );
}

#[test]
fn uses_that_are_harmless() {
    for text in [
        "production p of p = \"[\" q \"]\" production q of q = t",
        "production p of p = \"[\" q*(\", \") \"]\" production q of q = t",
        "production p of p = \"<a>\" q \"</a>\" production q of q = xml",
        "production p of p = \"<a>\" q \"</a>\" production q of q = word",
        "production p of p = \"<a b='\" q \"'/>\" production q of q = xml",
        "production p of p = \"<!-- \" q \" -->\" production q of q = t",
        "production p of p = \"<![CDATA[\" q*(\"<br/>\") \"]]>\" production q of q = t",
        "production p of p = \"<a>\" q production q of q = t",
        "production p of p = q \"</a>\" production q of q = t",
        "production p of p = \"<a/>\" production q of q = t",
        "production p of p = \"-> \" q \" <- \" q production q of q = t",
    ] {
        assert_eq!(said(text), NONE, "{text}");
    }
}

#[test]
fn addresses_in_angle_brackets() {
    for text in [
        "production p of p = q*(\", \") production q of q = t \" <\" xml \">\"",
        "production p of p = q* production q of q = \"<\" xml \"> \" t",
        "production p of p = \"<\" xml \"> \" q \", <\" xml \">\" production q of q = t",
    ] {
        assert_eq!(said(text), NONE, "{text}");
    }
}

#[test]
fn circles() {
    assert_eq!(
        said(
            "production p of p = \"<a>\" q \"</a>\"\n\
             production q of q = r production e of q =\n\
             production r of r = q t"
        ),
        [content(
            4,
            23,
            "where production `p` has it between `<a>..` and `</a>`"
        )]
    );
    assert_eq!(
        said("production p of p = \"<a>\" p \"</a>\" production q of p = t").len(),
        1
    );
    let no_start = "production p of p = q t production q of q = p t";
    assert_eq!(said(no_start), NONE);
    let start = "template main (v: v) of p = build p ()";
    let opened = "production p of p = \"<a>\" q \"</a>\" production q of q = p t";
    assert_eq!(said(opened), NONE);
    assert_eq!(said(&format!("{opened} {start}")).len(), 1);
}

#[test]
fn a_class_with_a_nonterminals_name_is_the_class() {
    for text in [
        "production p of p = \"<a>\" word \"</a>\" production q of word = t",
        "production p of p = word t \"</a>\" production q of word = \"<a>\"",
        "production p of p = \"<a>\" t word production q of word = \"</a>\"",
    ] {
        assert_eq!(said(text), NONE, "{text}");
    }
}

/// Nonterminals of which each uses the next one, and the last has a class.
fn chain(length: usize, around: impl Fn(usize) -> String) -> String {
    let each = (0..length).map(|number| {
        let elements = around(number).replace("NEXT", &format!("n{}", number + 1));
        format!("production p{number} of n{number} = {elements}\n")
    });
    let start = "production p of p = \"<a>\" n0 \"</a>\"\n";
    format!(
        "{start}{}production q of n{length} = t",
        each.collect::<String>()
    )
}

/// About as long as a stream holds.
#[test]
fn long_chains() {
    let text = chain(4_000, |_| "NEXT".to_string());
    assert_eq!(said(&text), [content(4_003, 25, IN_P)]);
    let text = chain(1_300, |_| "\"\" NEXT*(\" \") \"\" NEXT".to_string());
    let between = "where production `p` has it between `<a>` and `..</a>`";
    assert_eq!(said(&text), [content(1_303, 25, between)]);
}

/// Thousands of productions of one nonterminal, each of which uses that nonterminal itself.
#[test]
fn a_long_row_of_alternatives() {
    let rows: String = (0..2_000)
        .map(|number| format!("production q{number} of q = \"<b>\" q \"</b>\"\n"))
        .collect();
    let text = format!("production p of p = \"<a>\" q \"</a>\"\nproduction q of q = t\n{rows}");
    assert_eq!(said(&text), [content(3, 21, IN_P)]);
}

#[test]
fn many_states_take_no_long_time() {
    let pieces = [
        "\"<\" ",
        "\" b=\\\"\" ",
        "\" c='\" ",
        "\">\" ",
        "\"<!--\" ",
        "\"-->\" ",
        "\"<?\" ",
    ];
    let uses: String = pieces
        .iter()
        .map(|piece| format!("{piece} NEXT NEXT*(\"<\") ").repeat(10))
        .collect();
    let text = chain(200, |_| uses.clone());
    assert_eq!(said(&text).len(), 1);
    let classes = format!("\"<a>\" NEXT \"</a>\" {}", "\"\" t".repeat(200));
    assert_eq!(said(&chain(200, |_| classes.clone())).len(), 40_001);
}
