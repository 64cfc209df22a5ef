//! A whole call runs on a small stack, on both machines: layout is judged before depth, on the
//! deepest trees that 128 blocks hold, and a walk goes 201 levels deep, with thousands of items
//! below the 200th, through builds, loops, expands and matches. And what a call of the proved library
//! takes is measured.

use std::thread::Builder;

use build::{
    blocks, record, Element, Grammar, Node, Path, Record, Templates, Value, TEMPLATES, VALUE,
};
use trials::{Fields, Machine, Reference, SECOND};

/// The stack that a server may give a call.
const STACK: usize = 512 * 1024;

/// The records of a stream of 128 blocks.
const FULL: u16 = 128 * 63;

/// Characters of the class of many ranges, some in each of its last three.
const LETTERS: &str = "abαβ\u{4E00}\u{4E11}";

/// Nonterminal 0: `(` 0 `)`, or `{` 0* `}`, or nothing, or a lexeme of a class, or `[` 0* `]` with a
/// separator between the items, or an escaped lexeme of that class. So many classes without ranges
/// stand before it, and it has so many ranges; the escaped class comes last.
fn grammar(before: usize, ranges: u32) -> Grammar {
    let keyword = |text: &str| Element::keyword(text);
    let mut grammar = Grammar::new();
    for _ in 0..before {
        grammar.class(0, 1, &[]);
    }
    let code = |range: u32| 0x10000 + 2 * (ranges - range);
    let mut all: Vec<(u32, u32)> = (3..ranges)
        .map(|range| (code(range), code(range)))
        .collect();
    all.extend([(0x26, 0x7A), (0x370, 0x3FF), (0x4E00, 0x4EFF)]);
    let class = grammar.class(0, 1_000, &all);
    let escaped = grammar.escaped(class);
    grammar.production(0, [keyword("("), Element::Nonterminal(0), keyword(")")]);
    grammar.production(0, [keyword("{"), Element::Repetition(0), keyword("}")]);
    grammar.production(0, []);
    grammar.production(0, [Element::Class(class)]);
    let list = Element::separated(0, ", ");
    grammar.production(0, [keyword("["), list, keyword("]")]);
    grammar.production(0, [Element::Class(escaped)]);
    grammar
}

/// The same with as many empty productions behind as 128 blocks hold.
fn filled(mut grammar: Grammar) -> Grammar {
    for _ in grammar.records().len()..FULL.into() {
        grammar.production(0, []);
    }
    grammar
}

/// A small grammar, and some that fill 128 blocks, as tables may grow with what they hold: 256 classes
/// and ranges, classes and productions, all three, and productions with next to nothing else. Each with
/// what it is called and the number of its class of many ranges.
fn grammars() -> [(&'static str, Vec<u8>, u16); 5] {
    let full = [
        ("256 classes and ranges", grammar(254, 7_784), 254),
        ("256 classes and productions", filled(grammar(254, 3)), 254),
        ("all three", filled(grammar(254, 3_900)), 254),
        ("productions", filled(grammar(0, 3)), 0),
    ];
    for (name, grammar, _) in &full {
        assert_eq!(grammar.records().len(), usize::from(FULL), "{name}");
    }
    let [ranges, productions, all, alone] = full;
    let small = ("a small grammar", grammar(0, 3), 0);
    [small, ranges, productions, all, alone]
        .map(|(name, grammar, class)| (name, grammar.stream(), class))
}

/// Templates on lists of lists, with these bodies.
fn templates<const COUNT: usize>(bodies: [Node; COUNT]) -> Vec<u8> {
    let mut templates = Templates::new();
    let list = templates.list(0);
    for body in bodies {
        templates.template(0, [list], body);
    }
    templates.stream()
}

/// So many records of a kind and form, each with the next as its one child.
fn chain(kind: u8, form: u8, levels: u16) -> Vec<Record> {
    (0..levels)
        .map(|level| record(kind, form, 0, levels - level, u16::from(level + 1 < levels)))
        .collect()
}

/// Lists in one another, so many levels deep.
fn lists(levels: u16) -> Vec<u8> {
    blocks(VALUE, &chain(3, 0, levels))
}

/// A template whose body fills 128 blocks with nodes of a form, each in the one before it.
fn deepest_body(form: u8) -> Vec<u8> {
    let mut records = vec![
        record(1, 2, 0, 0, 0),
        record(3, 1, 0, FULL - 1, 0),
        record(4, 0, 0, 0, 0),
    ];
    records.extend(chain(5, form, FULL - 3));
    assert_eq!(records.len(), usize::from(FULL));
    blocks(TEMPLATES, &records)
}

/// A body below so many builds.
fn below(levels: usize, body: Node) -> Node {
    (0..levels).fold(body, |body, _| Node::build(0, [body]))
}

/// The body once for each item of the list: three levels and those of the body.
fn each(body: Node) -> Node {
    let each = Node::each(Path::variable(0), body);
    Node::build(1, [Node::sequence([each])])
}

/// The same, with a separator between the items.
fn listed(body: Node) -> Node {
    let each = Node::each(Path::variable(0), body);
    Node::build(4, [Node::sequence([each])])
}

fn nothing() -> Node {
    Node::build(2, [])
}

fn expand(template: u16, variable: u8) -> Node {
    Node::expand(template, [Path::variable(variable)])
}

/// Templates, a value and what an evaluate call answers.
type Case = (&'static str, Vec<u8>, Vec<u8>, Fields);

/// Trees that are over a limit, as deep as 128 blocks hold them.
fn deepest_trees() -> Vec<Case> {
    let empty = || lists(1);
    vec![
        (
            "a value of 8,064 levels",
            templates([nothing()]),
            lists(FULL),
            [4, 3, 200, 0, 0],
        ),
        (
            "a body of 8,061 builds",
            deepest_body(0),
            empty(),
            [4, 2, 203, 0, 0],
        ),
        (
            "a body of 8,061 sequences",
            deepest_body(6),
            empty(),
            [4, 2, 203, 0, 0],
        ),
    ]
}

/// Walks over one child a level.
fn narrow_walks() -> Vec<Case> {
    vec![
        (
            "200 levels of builds and of values",
            templates([below(199, nothing())]),
            lists(200),
            [0, 0, 0, 200, 398],
        ),
        (
            "a template that expands itself",
            templates([expand(0, 0)]),
            lists(200),
            [11, 2, 3, 201, 0],
        ),
        (
            "an expand in each of 50 loops",
            templates([each(expand(0, 1))]),
            lists(50),
            [0, 0, 0, 199, 100],
        ),
        (
            "an expand in each of 51 loops",
            templates([each(expand(0, 1))]),
            lists(51),
            [11, 2, 3, 201, 50],
        ),
    ]
}

/// Literals in the positions of the class of many ranges and of its escaped form.
fn deep_lexemes() -> Vec<Case> {
    let lexeme = Node::build(3, [Node::literal(LETTERS.repeat(100))]);
    let escaped = Node::build(5, [Node::literal("α&amp;".repeat(100))]);
    vec![
        (
            "a lexeme below 199 levels",
            templates([below(198, lexeme)]),
            lists(1),
            [0, 0, 0, 200, 396 + 100 * LETTERS.len() as u64],
        ),
        (
            "an escaped lexeme below 199 levels",
            templates([below(198, escaped)]),
            lists(1),
            [0, 0, 0, 200, 396 + 700],
        ),
    ]
}

/// A text of a class, written with entities below 199 levels.
fn escaped_text(class: u16) -> Case {
    let mut templates = Templates::new();
    let text = templates.text(class);
    let place = Node::build(5, [Node::place(Path::variable(0))]);
    templates.template(0, [text], below(198, place));
    let value = Value::text("α&".repeat(100)).stream();
    let name = "a text with entities below 199 levels";
    (name, templates.stream(), value, [0, 0, 0, 200, 396 + 700])
}

/// An empty text in lists, 200 levels in all, of which nothing is written.
fn text_in_lists() -> Case {
    let mut templates = Templates::new();
    let text = templates.text(0);
    let whole = (0..199).fold(text, |item, _| templates.list(item));
    templates.template(0, [whole], nothing());
    let value = (0..199).fold(Value::text(""), |item, _| Value::list([item]));
    let name = "a text below 199 lists";
    (name, templates.stream(), value.stream(), [0, 0, 0, 1, 0])
}

/// Text of a class, and on top of it so many variants of one case in one another. Answers the type of
/// the whole; variant n has type n.
fn variants(templates: &mut Templates, class: u16, levels: u16) -> u16 {
    let text = templates.text(class);
    (0..levels).fold(text, |content, _| templates.variant([content]))
}

/// A value below so many cases.
fn cases_around(levels: u16, content: Value) -> Value {
    (0..levels).fold(content, |content, _| Value::case(0, content))
}

/// Cases, 200 levels in all, around what is a text of the class or isn't.
fn text_in_cases(class: u16, name: &'static str, text: &str, expected: Fields) -> Case {
    let mut templates = Templates::new();
    let whole = variants(&mut templates, class, 199);
    templates.template(0, [whole], nothing());
    let value = cases_around(199, Value::text(text));
    (name, templates.stream(), value.stream(), expected)
}

/// Lists and cases in turn, as deep as may be, around an empty list or a case too many.
fn lists_and_cases(name: &'static str, innermost: Value, expected: Fields) -> Case {
    let mut templates = Templates::new();
    let list = templates.list(1);
    let variant = templates.variant([list]);
    templates.template(0, [variant], nothing());
    let turn = |content, _| Value::case(0, Value::list([content]));
    let value = (0..99).fold(innermost, turn);
    (name, templates.stream(), value.stream(), expected)
}

/// Trees of cases and of matches, as deep as 128 blocks hold them.
fn deepest_cases() -> Vec<Case> {
    let mut value: Vec<Record> = (0..FULL - 1)
        .map(|level| record(5, 0, 0, FULL - level, 0))
        .collect();
    value.push(record(3, 0, 0, 1, 0));
    let levels = (FULL - 4) / 2;
    let mut body = vec![
        record(1, 2, 0, 0, 0),
        record(3, 1, 0, 2 * levels + 3, 0),
        record(4, 0, 0, 0, 0),
    ];
    for level in 0..levels {
        let size = 2 * (levels - level) + 1;
        body.extend([record(5, 7, 0, size, 1), record(6, 0, 0, 0, 0)]);
    }
    body.push(record(5, 0, 2, 1, 0));
    let over_depth = [4, 3, 200, 0, 0];
    let over_loops = [4, 2, 3 + 2 * 17, 0, 0];
    vec![
        (
            "a value of 8,063 cases",
            templates([nothing()]),
            blocks(VALUE, &value),
            over_depth,
        ),
        (
            "a body of 4,030 matches",
            blocks(TEMPLATES, &body),
            lists(1),
            over_loops,
        ),
    ]
}

/// A node below so many matches, each on the content of the one around it.
fn matches_around(count: u8, body: Node) -> Node {
    let on = |variable| Path::variable(variable);
    (0..count)
        .rev()
        .fold(body, |body, variable| Node::by_case(on(variable), [body]))
}

/// A walk through matches in one another: sixteen of a template, then an expand of the next. The
/// innermost body writes the text, of a class, below so many builds.
fn walk_of_matches(class: u16, name: &'static str, builds: usize, expected: Fields) -> Case {
    let mut set = Templates::new();
    let mut kind = variants(&mut set, class, 11 * 16 + 10);
    for next in 1..=11 {
        let further = Node::expand(next, [Path::variable(16)]);
        set.template(0, [kind], matches_around(16, further));
        kind -= 16;
    }
    let place = Node::build(3, [Node::place(Path::variable(10))]);
    set.template(0, [kind], matches_around(10, below(builds, place)));
    let value = cases_around(11 * 16 + 10, Value::text("ab"));
    (name, set.stream(), value.stream(), expected)
}

/// Sixteen loops and arms in turn, and builds below them down to depth 200: typing and a walk.
fn loops_and_arms() -> Case {
    let mut set = Templates::new();
    let list = set.list(1);
    let variant = set.variant([list]);
    let last = below(200 - 8 * 4 - 1, nothing());
    let body = (0..8).rev().fold(last, |body, turn| {
        let each = Node::each(Path::variable(2 * turn + 1), body);
        let row = Node::build(1, [Node::sequence([each])]);
        Node::by_case(Path::variable(2 * turn), [row])
    });
    set.template(0, [variant], body);
    let innermost = Value::case(0, Value::list([]));
    let turn = |content, _| Value::case(0, Value::list([content]));
    let value = (0..8).fold(innermost, turn);
    let name = "16 loops and arms, and builds to depth 200";
    let bytes = 2 * (8 + 200 - 8 * 4 - 1);
    (name, set.stream(), value.stream(), [0, 0, 0, 200, bytes])
}

/// Thousands of items, each a case, whose arms lie at depth 200 or would lie at 201.
fn many_cases(name: &'static str, levels: usize, expected: Fields) -> Case {
    let mut set = Templates::new();
    let list = set.list(2);
    let yes_no = set.yes_no();
    let variant = set.variant([yes_no; 4]);
    set.template(0, [list], below(levels, each(expand(1, 1))));
    let arms = vec![nothing(); 4];
    set.template(0, [variant], Node::by_case(Path::variable(0), arms));
    let item = |number: usize| Value::case((number % 4) as u8, Value::YesNo(true));
    let value = Value::list((0..4_000).map(item));
    (name, set.stream(), value.stream(), expected)
}

/// Values of variants and matches on them.
fn variant_cases(class: u16) -> Vec<Case> {
    let typed = [0, 0, 0, 1, 0];
    let mut all = deepest_cases();
    all.extend([
        text_in_cases(class, "a text below 199 cases", LETTERS, typed),
        text_in_cases(
            class,
            "a wrong text below 199 cases",
            "\u{B}",
            [8, 3, 199, 0, 0],
        ),
        lists_and_cases(
            "99 lists and cases in turn",
            Value::case(0, Value::list([])),
            typed,
        ),
        lists_and_cases(
            "a case too many in lists and cases",
            Value::case(1, Value::list([])),
            [8, 3, 198, 0, 0],
        ),
        walk_of_matches(class, "186 matches", 1, [0, 0, 0, 200, 4]),
        walk_of_matches(class, "a place below 186 matches", 2, [11, 2, 794, 201, 2]),
        loops_and_arms(),
        many_cases("4,000 arms at depth 200", 194, [0, 0, 0, 12_197, 390]),
        many_cases("an arm at depth 201", 195, [11, 2, 214, 201, 196]),
    ]);
    all
}

/// Walks over thousands of items, which lie at depth 200 or would lie at 201.
fn wide_walks() -> Vec<Case> {
    let list = |count| Value::list(vec![Value::list([]); count]).stream();
    let wide = || list(8_000);
    vec![
        (
            "700 separated builds at depth 200",
            templates([below(196, listed(nothing()))]),
            list(700),
            [0, 0, 0, 199 + 700, 394 + 2 * 699],
        ),
        (
            "an expand in each of 50 separated lists",
            templates([listed(expand(0, 1))]),
            lists(50),
            [0, 0, 0, 199, 100],
        ),
        (
            "8,000 builds at depth 200",
            templates([below(196, each(nothing()))]),
            wide(),
            [0, 0, 0, 199 + 8_000, 394],
        ),
        (
            "8,000 expands at depth 199",
            templates([below(195, each(expand(1, 1))), nothing()]),
            wide(),
            [0, 0, 0, 198 + 16_000, 392],
        ),
        (
            "8,000 expands at depth 200",
            templates([below(196, each(expand(1, 1))), nothing()]),
            wide(),
            [11, 2, 207, 201, 197],
        ),
    ]
}

/// All cases, for a grammar whose class of many ranges has this number.
fn cases(class: u16) -> Vec<Case> {
    let texts = vec![text_in_lists(), escaped_text(class)];
    let lexemes = deep_lexemes();
    [
        deepest_trees(),
        narrow_walks(),
        lexemes,
        texts,
        wide_walks(),
        variant_cases(class),
    ]
    .concat()
}

/// A text that takes an unescape call through entities and characters of every length.
fn escaped_letters() -> Vec<u8> {
    format!("&amp;&lt;&gt;&quot;&apos;{LETTERS}\u{1F600}")
        .repeat(1_000)
        .into_bytes()
}

/// Tries all cases on a machine. The streams are built outside of the small stack.
fn on_a_small_stack(machine: impl Machine + Send + 'static) {
    let sets = grammars().map(|(held, grammar, class)| (held, grammar, cases(class)));
    let text = escaped_letters();
    let calls = move || {
        for (held, grammar, cases) in &sets {
            let tried = cases.iter();
            tried.for_each(|case| call(&machine, held, grammar, case));
        }
        let mut plain = vec![0; text.len()];
        let bytes = 1_000 * (5 + LETTERS.len() + 4) as u64;
        assert_eq!(machine.unescape(&text, &mut plain), [0, 0, 0, 0, bytes]);
    };
    let small = Builder::new().stack_size(STACK);
    let thread = small.spawn(calls).expect("a thread");
    thread.join().expect("no wrong answer");
}

/// An evaluate call and a check call, which refuses only templates that are over a limit.
fn call(
    machine: &dyn Machine,
    held: &str,
    grammar: &[u8],
    (name, templates, value, expected): &Case,
) {
    let name = format!("{name}, {held}, {}", machine.name());
    let (mut out, mut scratch) = (vec![0; 2_000], vec![0; 4_800]);
    let streams = [grammar, templates, value];
    let fields = machine.evaluate(streams, u32::MAX, &mut out, &mut scratch);
    assert_eq!(fields, *expected, "{name}");
    let checked = match expected {
        [4, 2, ..] => *expected,
        _ => [0; 5],
    };
    assert_eq!(machine.check(grammar, templates), checked, "{name}");
}

#[test]
fn the_reference_runs_on_a_small_stack() {
    on_a_small_stack(Reference);
}

#[test]
fn the_second_machine_runs_on_a_small_stack() {
    on_a_small_stack(SECOND);
}

/// What a call takes is looked for in paint: the stack below it is painted before, and the deepest
/// byte that the call wrote to is found afterwards. Not counted is what a thread takes for itself at
/// the top of its stack, some 4.5 KiB with the GNU C library.
#[cfg(feature = "proved")]
mod painted {
    use std::fs::File;
    use std::hint::black_box;
    use std::os::unix::fs::FileExt;
    use std::thread::Builder;

    use trials::{Machine, SECOND};

    use super::{cases, escaped_letters, grammars};

    /// Less than this is taken by a call, with the frames of the wrapper and of the test.
    const MOST: usize = 256 * 1024;

    /// So much is painted below a call.
    const PAINTED: usize = 1 << 20;
    const PAINT: u8 = 0xA5;

    #[inline(never)]
    fn paint() {
        black_box(&mut [PAINT; PAINTED]);
    }

    /// The bytes of stack below this frame that a call takes. (They lie below all frames when they
    /// are looked at, where no reference reaches; so the system is asked for them.)
    #[inline(never)]
    fn taken(call: impl FnOnce()) -> usize {
        let here = black_box(0);
        let lowest = std::ptr::from_ref(&here).addr() - PAINTED;
        paint();
        call();
        let mut stack = vec![0; PAINTED];
        let memory = File::open("/proc/self/mem").expect("this process's memory");
        memory
            .read_exact_at(&mut stack, lowest as u64)
            .expect("the painted stack");
        let written = stack.iter().position(|&byte| byte != PAINT);
        PAINTED - written.expect("a call that takes stack")
    }

    /// The call that takes most: its bytes, and what it is.
    fn most() -> (usize, String) {
        let (mut out, mut scratch) = (vec![0; 2_000], vec![0; 4_800]);
        let mut all = Vec::new();
        for (held, grammar, class) in &grammars() {
            for (name, templates, value, _) in &cases(*class) {
                let name = format!("{name}, {held}");
                let evaluate = taken(|| {
                    SECOND.evaluate(
                        [grammar, templates, value],
                        u32::MAX,
                        &mut out,
                        &mut scratch,
                    );
                });
                let check = taken(|| {
                    SECOND.check(grammar, templates);
                });
                all.push((evaluate, format!("evaluate, {name}")));
                all.push((check, format!("check, {name}")));
            }
        }
        let (text, mut plain) = (escaped_letters(), vec![0; 60_000]);
        let unescape = taken(|| {
            SECOND.unescape(&text, &mut plain);
        });
        all.push((unescape, "unescape".into()));
        all.into_iter().max().expect("some call")
    }

    #[test]
    fn a_call_takes_less_than_256_kib() {
        let thread = Builder::new().stack_size(2 * PAINTED).spawn(most);
        let (bytes, name) = thread.expect("a thread").join().expect("a measure");
        println!("{bytes} bytes: {name}");
        assert!(bytes < MOST, "{bytes} bytes: {name}");
    }
}
