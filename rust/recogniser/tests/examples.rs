//! Fixed examples: what is derived, and what is not once a byte is missing or added.

use build::Element::{Class, Nonterminal, Repetition};
use build::{Element, Grammar, Node, Path, Templates};
use recogniser::{start, BUDGET};

fn keyword(text: &str) -> Element {
    Element::keyword(text)
}

fn derives(grammar: &Grammar, nonterminal: u16, text: &[u8]) -> bool {
    recogniser::Grammar::read(&grammar.stream())
        .expect("a grammar")
        .derives(nonterminal, text, BUDGET)
        .expect("a verdict")
}

/// The paper's example: `[` and `<word>` again and again and `]`.
fn entries() -> Grammar {
    let mut grammar = Grammar::new();
    grammar.class(1, 4, &[(0x61, 0x7A), (0x370, 0x3FF)]);
    grammar.production(0, [keyword("["), Repetition(1), keyword("]")]);
    grammar.production(1, [keyword("<"), Class(0), keyword(">")]);
    grammar
}

#[test]
fn the_papers_example_and_its_neighbours() {
    let grammar = entries();
    for text in ["[]", "[<ab>]", "[<ab><αβγδ>]", "[<a><b><c><dddd>]"] {
        assert!(derives(&grammar, 0, text.as_bytes()), "{text}");
    }
    for text in [
        "",
        "[",
        "[<>]",
        "[<abcde>]",
        "[<αβγδε>]",
        "[<AB>]",
        "[]]",
        "<ab>",
    ] {
        assert!(!derives(&grammar, 0, text.as_bytes()), "{text}");
    }
    assert!(derives(&grammar, 1, "<ab>".as_bytes()));
    assert!(!derives(&grammar, 0, &[b'[', b'<', 0xC0, 0x80, b'>', b']']));
    assert!(!derives(&grammar, 7, b"[]"));
}

/// A little XML with nested lists.
fn markup() -> Grammar {
    let mut grammar = Grammar::new();
    grammar.class(
        1,
        40,
        &[(0x20, 0x3B), (0x3D, 0x3D), (0x3F, 0x7E), (0x370, 0x3FF)],
    );
    grammar.production(0, [keyword("<list>"), Repetition(1), keyword("</list>")]);
    grammar.production(1, [keyword("<item>"), Class(0), keyword("</item>")]);
    grammar.production(1, [Nonterminal(0)]);
    grammar
}

#[test]
fn every_byte_deleted_or_inserted_in_a_keyword_is_noticed() {
    let grammar = markup();
    let text = "<list><item>α β</item><list></list><item>x</item></list>".as_bytes();
    assert!(derives(&grammar, 0, text));
    // Bytes of the items' own texts: a character may go, half of one may not.
    let free = |at: usize| (12..17).contains(&at) || (41..42).contains(&at);
    let mut noticed = 0;
    for at in 0..text.len() {
        let mut shorter = text.to_vec();
        shorter.remove(at);
        let mut longer = text.to_vec();
        longer.insert(at, b'<');
        assert!(!derives(&grammar, 0, &longer), "< at {at}");
        let derived = derives(&grammar, 0, &shorter);
        assert!(!derived || free(at), "without byte {at}");
        noticed += usize::from(!derived);
    }
    assert!(noticed >= text.len() - 2, "{noticed} of {}", text.len());
}

#[test]
fn empty_derivations_and_left_recursion() {
    let mut grammar = Grammar::new();
    grammar.class(0, 2, &[(0x61, 0x61)]);
    grammar.production(0, [Nonterminal(0), Nonterminal(1)]);
    grammar.production(0, []);
    grammar.production(1, [Repetition(2), keyword("b")]);
    grammar.production(2, [Class(0)]);
    for text in ["", "b", "ab", "aaaaab", "bb", "abaabb"] {
        assert!(derives(&grammar, 0, text.as_bytes()), "{text}");
    }
    for text in ["a", "ba", "c", "abc"] {
        assert!(!derives(&grammar, 0, text.as_bytes()), "{text}");
    }
}

/// Words in brackets with a separator between them.
fn separated(separator: &[u8]) -> Grammar {
    let mut grammar = Grammar::new();
    grammar.class(1, 9, &[(0x61, 0x7A)]);
    let row = Element::separated(1, separator);
    grammar.production(0, [keyword("["), row, keyword("]")]);
    grammar.production(1, [Class(0)]);
    grammar
}

#[test]
fn one_separator_between_neighbours_and_none_elsewhere() {
    let grammar = separated(b", ");
    for text in ["[]", "[a]", "[a, b]", "[ab, cd, ef]"] {
        assert!(derives(&grammar, 0, text.as_bytes()), "{text}");
    }
    for text in [
        "[, ]", "[a, ]", "[, a]", "[a,b]", "[a b]", "[a, , b]", "[a, b, ]", "[a, b", "a, b",
    ] {
        assert!(!derives(&grammar, 0, text.as_bytes()), "{text}");
    }
}

#[test]
fn separators_of_any_bytes() {
    let grammar = separated(&[0xFF, 0]);
    assert!(derives(&grammar, 0, b"[a\xFF\0b]"));
    assert!(!derives(&grammar, 0, b"[a\xFFb]"));
    let long = "; and then ".repeat(40);
    let grammar = separated(long.as_bytes());
    assert!(derives(
        &grammar,
        0,
        format!("[a{long}b{long}c]").as_bytes()
    ));
    assert!(!derives(
        &grammar,
        0,
        format!("[a{long}{long}c]").as_bytes()
    ));
    // A separator that a word may begin with, or be.
    let grammar = separated(b"a");
    for (text, derived) in [("[bac]", true), ("[aa]", true), ("[ab]", true)] {
        assert_eq!(derives(&grammar, 0, text.as_bytes()), derived, "{text}");
    }
    assert!(!derives(&grammar, 0, b"[b c]"));
}

#[test]
fn empty_items_and_empty_separators() {
    // Items that may be empty: any number of commas, as each has an item on either side.
    let mut grammar = Grammar::new();
    grammar.class(0, 1, &[(0x61, 0x61)]);
    grammar.production(0, [Element::separated(1, ",")]);
    grammar.production(1, [Class(0)]);
    for text in ["", "a", ",", "a,", ",a", ",,,", "a,,a"] {
        assert!(derives(&grammar, 0, text.as_bytes()), "{text}");
    }
    for text in ["aa", "a,aa", "b", ",b"] {
        assert!(!derives(&grammar, 0, text.as_bytes()), "{text}");
    }
    // An empty separator is as good as none, and the run ends though both derive nothing.
    for element in [Element::separated(1, ""), Repetition(1)] {
        grammar.productions[0].elements = vec![element, keyword(".")];
        for text in [".", "a.", "aaaa."] {
            assert!(derives(&grammar, 0, text.as_bytes()), "{text}");
        }
        for text in ["", "a", "..", "a,a."] {
            assert!(!derives(&grammar, 0, text.as_bytes()), "{text}");
        }
    }
}

#[test]
fn a_nonterminal_that_never_ends_derives_nothing() {
    let mut grammar = Grammar::new();
    grammar.production(0, [keyword("("), Nonterminal(0), keyword(")")]);
    assert!(!derives(&grammar, 0, b""));
    assert!(!derives(&grammar, 0, b"(())"));
}

#[test]
fn past_the_budget_there_is_no_verdict() {
    let grammar = recogniser::Grammar::read(&entries().stream()).expect("a grammar");
    assert_eq!(grammar.derives(0, b"[<ab>]", 5), None);
}

/// `<title>`, an escaped title of one to three characters, and `</title>`; nonterminal 1 has the
/// plain title.
fn titles() -> Grammar {
    let mut grammar = Grammar::new();
    grammar.class(0, 0, &[]);
    let plain = grammar.class(1, 3, &[(0x20, 0x3C), (0x61, 0x7A), (0x370, 0x3FF)]);
    let escaped = grammar.escaped(plain);
    let [open, close] = ["<title>", "</title>"].map(keyword);
    grammar.production(0, [open, Class(escaped), close]);
    grammar.production(1, [Class(plain)]);
    grammar
}

#[test]
fn an_escaped_class_has_entities_for_five_characters() {
    let grammar = titles();
    for title in ["abc", "a&amp;b", "&lt;&quot;&apos;", "α&amp;β", ";", "amp"] {
        let text = format!("<title>{title}</title>");
        assert!(derives(&grammar, 0, text.as_bytes()), "{text}");
    }
    let counts = ["", "&amp;&amp;&amp;&amp;", "abcd"];
    let raw = ["a&b", "&", "<", "\"", "'", "&amp", "&amp;;;;"];
    let others = ["&#38;", "&#x26;", "&AMP;", "&nbsp;", "&;"];
    // The class has no U+003E.
    let outside = ["&gt;", "A", ">"];
    for title in [&counts[..], &raw, &others, &outside].concat() {
        let text = format!("<title>{title}</title>");
        assert!(!derives(&grammar, 0, text.as_bytes()), "{text}");
    }
    // The plain class is as it was.
    assert!(derives(&grammar, 1, b"a&b"));
    assert!(!derives(&grammar, 1, b"a&amp;b"));
}

#[test]
fn an_escaped_class_names_an_earlier_plain_one() {
    for named in [0, 2, 3, 4] {
        let mut grammar = titles();
        grammar.escaped(named);
        let read = recogniser::Grammar::read(&grammar.stream());
        assert_eq!(read.is_some(), named == 0, "{named}");
    }
}

/// Any characters, plain or (nonterminal 1) escaped, between brackets, which have a U+000B before them.
fn any_characters() -> Grammar {
    let mut grammar = Grammar::new();
    let plain = grammar.class(0, 9, &[(0, 0x10_FFFF)]);
    let escaped = grammar.escaped(plain);
    for (nonterminal, class) in [plain, escaped].into_iter().enumerate() {
        let [open, close] = ["\u{B}[", "\u{B}]"].map(keyword);
        grammar.production(nonterminal as u16, [open, Class(class), close]);
    }
    grammar
}

#[test]
fn a_lexeme_has_characters_of_xml_only() {
    let grammar = any_characters();
    let derived = |text: String| [0, 1].map(|number| derives(&grammar, number, text.as_bytes()));
    let own =
        "\t\n\r \u{7F}\u{80}\u{85}\u{D7FF}\u{E000}\u{FDD0}\u{FFFD}\u{10000}\u{1FFFE}\u{10FFFF}";
    let foreign = "\0\u{1}\u{8}\u{B}\u{C}\u{E}\u{1F}\u{FFFE}\u{FFFF}";
    assert_eq!(derived("\u{B}[\u{B}]".into()), [true; 2]);
    for (characters, expected) in [(own, true), (foreign, false)] {
        for character in characters.chars() {
            for lexeme in [format!("{character}"), format!("a{character}α")] {
                let text = format!("\u{B}[{lexeme}\u{B}]");
                assert_eq!(derived(text), [expected; 2], "{lexeme:?}");
            }
        }
    }
}

#[test]
fn separators_may_have_other_characters_too() {
    let grammar = separated("\u{B}\u{FFFE}".as_bytes());
    assert!(derives(&grammar, 0, "[a\u{B}\u{FFFE}b]".as_bytes()));
    assert!(!derives(&grammar, 0, "[a\u{B}b]".as_bytes()));
}

/// Nonterminal 0 is a row of nonterminal 1, which has so many keywords, `<0>` and on.
fn keywords(count: usize) -> Grammar {
    let mut grammar = Grammar::new();
    grammar.production(0, [Element::separated(1, ",")]);
    for number in 0..count {
        grammar.production(1, [keyword(&format!("<{number}>"))]);
    }
    grammar
}

#[test]
fn thousands_of_productions_of_one_nonterminal() {
    for count in [255, 256, 257, 700, 2_600] {
        let grammar = keywords(count);
        // Of so many items each would take all productions, if these began where the text hasn't their
        // keyword: past the budget.
        let row = |last: usize| {
            let items = (0..200).map(|item| format!("<{}>", item % count));
            items
                .chain([format!("<{last}>")])
                .collect::<Vec<_>>()
                .join(",")
        };
        assert!(derives(&grammar, 0, row(count - 1).as_bytes()), "{count}");
        for missing in [count, count + 255, count + 256] {
            assert!(!derives(&grammar, 0, row(missing).as_bytes()), "{missing}");
        }
    }
}

/// Production n of nonterminal n: `n(`, that of n + 1 or nothing, and `)`.
#[test]
fn thousands_of_nonterminals_in_one_another() {
    const COUNT: u16 = 1_200;
    let mut grammar = Grammar::new();
    for number in 0..COUNT {
        let inner = Nonterminal(number + 1);
        grammar.production(
            number,
            [keyword(&format!("{number}(")), inner, keyword(")")],
        );
        grammar.production(number, []);
    }
    grammar.production(COUNT, []);
    let nested = |levels: u16| {
        let open: String = (0..levels).map(|number| format!("{number}(")).collect();
        open + &")".repeat(levels.into())
    };
    for levels in [0, 1, 257, 700, COUNT] {
        let text = nested(levels);
        assert!(derives(&grammar, 0, text.as_bytes()), "{levels}");
        assert!(!derives(&grammar, 0, format!("{text})").as_bytes()));
        assert_eq!(derives(&grammar, 1, text.as_bytes()), levels == 0);
    }
    assert!(!derives(&grammar, 0, nested(COUNT + 1).as_bytes()));
}

/// Who asked goes on once, though thousands of productions are there, and who asks later goes on, too.
#[test]
fn thousands_of_askers_for_thousands_of_empty_productions() {
    let mut grammar = Grammar::new();
    for _ in 0..3_000 {
        grammar.production(0, [Nonterminal(1), keyword("a")]);
        grammar.production(1, []);
    }
    assert!(derives(&grammar, 0, b"a"));
    assert!(!derives(&grammar, 0, b""));
    assert!(!derives(&grammar, 0, b"aa"));
}

/// A template 0 behind variants, with a match on one.
fn set_with_a_match(nonterminal: u16) -> Templates {
    let mut templates = Templates::new();
    let text = templates.text(0);
    let yes_no = templates.yes_no();
    let variant = templates.variant([text, yes_no]);
    let titles = Node::sequence([Node::build(1, [Node::place(Path::variable(1))])]);
    let arms = [
        Node::build(0, [titles]),
        Node::build(0, [Node::sequence([])]),
    ];
    let body = Node::by_case(Path::variable(0), arms);
    templates.template(nonterminal, [variant], body);
    templates
}

/// A derivation knows no match: what either arm writes is derived from template 0's nonterminal, and
/// nothing else is.
#[test]
fn what_the_arms_of_a_match_write() {
    for nonterminal in [0, 1, 700] {
        let templates = set_with_a_match(nonterminal).stream();
        assert_eq!(start(&templates), Some(nonterminal));
    }
    let grammar = entries();
    let root = start(&set_with_a_match(0).stream()).expect("a template 0");
    for (text, derived) in [("[<ab>]", true), ("[]", true), ("<ab>", false), ("", false)] {
        assert_eq!(derives(&grammar, root, text.as_bytes()), derived, "{text}");
    }
}
