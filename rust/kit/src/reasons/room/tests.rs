use crate::reasons::explain::{explain, Lent, Set};

const SMALL: &str = r#"class c 0 to 4 { 'a'-'z' } production p of n = "the list: " c m*("; ") m*(" and then ") "."
    production q of m = c production r of m = "no" n
    type t = text c type l = list t
    template a (x: l) of n = build p (literal "kind" sequence () sequence (build r (expand b (x))))
    template b (x: l) of n = build p (literal "" sequence (for y in x do build q (place y)) sequence (
      for y in x do build q (place y) build q (literal "z")))
    value ["ab", "cd"]"#;

/// What `explain` adds with so many bytes of output.
fn said(output: usize) -> Vec<String> {
    let streams = crate::assemble(SMALL).expect("streams");
    let set = Set {
        grammar: &streams.grammar,
        templates: &streams.templates,
        value: &streams.value,
    };
    let lent = Lent {
        output,
        ..Lent::default()
    };
    let text = explain(set, lent).text;
    assert!(text.contains("(refusal 12)"), "{text}");
    text.lines()
        .filter_map(|line| line.strip_prefix("  = "))
        .filter(|line| line.ends_with(" left"))
        .map(str::to_string)
        .collect()
}

#[test]
fn a_separator_that_does_not_fit() {
    // "the list: kindnothe list: ab; cdab and then cd and then z.."
    let first = "the list: kindnothe list: ab".len();
    let second = "the list: kindnothe list: ab; cdab".len();
    for (output, said_there) in [
        (first, "the separator \"; \" has 2 bytes, and 0 are left"),
        (first + 1, "the separator \"; \" has 2 bytes, and 1 is left"),
        (
            second,
            "the separator \" and then \" has 10 bytes, and 0 are left",
        ),
        (
            second + 9,
            "the separator \" and then \" has 10 bytes, and 9 are left",
        ),
    ] {
        assert_eq!(said(output), [said_there], "{output}");
    }
}

#[test]
fn a_keyword_or_lexeme_that_does_not_fit() {
    let last = "the list: kindnothe list: ab; c".len();
    for (output, said_there) in [
        (0, "the keyword \"the list: \" has 10 bytes, and 0 are left"),
        (12, "the literal \"kind\" has 4 bytes, and 2 are left"),
        (last, "the text \"cd\" has 2 bytes, and 1 is left"),
    ] {
        assert_eq!(said(output), [said_there], "{output}");
    }
}
