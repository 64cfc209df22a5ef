//! The way of walks that meet a limit, in small sets and in the examples.

use super::*;
use crate::reasons::explain::words;
use crate::streams::record::{Found, Kind};
use crate::Streams;

/// A set's streams and records.
struct Set {
    streams: Streams,
    records: [Vec<Record>; 3],
}

impl Set {
    fn of(description: &str) -> Self {
        let streams = crate::assemble(description).expect("streams");
        let records = [
            (&streams.grammar, Kind::Grammar),
            (&streams.templates, Kind::Templates),
            (&streams.value, Kind::Value),
        ]
        .map(|(stream, kind)| Found::read(stream, Some(kind)).records);
        Self { streams, records }
    }

    fn answer(&self, fuel: u32, output: usize) -> Answer {
        let (mut output, mut scratch) = (vec![0; output], vec![0; feed::SCRATCH]);
        let Streams {
            grammar,
            templates,
            value,
        } = &self.streams;
        feed::evaluate(grammar, templates, value, fuel, &mut output, &mut scratch)
    }

    /// The way, and behind it why it is too deep.
    fn traced(&self, names: &Names, answer: Answer) -> Vec<String> {
        let [grammar, templates, value] = &self.records;
        let way = trace(grammar, templates, value, names, answer);
        way.levels.into_iter().chain(way.why).collect()
    }

    /// The way of a walk with so much fuel and output, which ends with this number.
    fn way(&self, number: u64, fuel: u32, output: usize) -> Vec<String> {
        let answer = self.answer(fuel, output);
        assert_eq!(answer.number, number);
        self.traced(&Names::default(), answer)
    }
}

const ROWS: &str = r#"class c 1 to 4 { ' '-'~' } class x = escaped c
    production p of n = "[" m*(", ") "]" production q of m = "<" x ">" production r of m = "-" n "."
    type t = text c type l = list t type ll = list l
    template main (rows: ll) of n = build p (sequence (for row in rows do build r (expand line (row))))
    template line (row: l) of n = build p (sequence (build q (literal "a") for word in row do build q (place word)))
    value [ ["b" "c"] [] ["d" "&" "f"] ]"#;

#[test]
fn templates_and_items_on_the_way() {
    let set = Set::of(ROWS);
    let text = "[-[<a>, <b>, <c>]., -[<a>]., -[<a>, <d>, <&amp;>, <f>].]";
    assert_eq!(set.answer(1_000, text.len()).number, 0);
    let until = |part: &str| text.find(part).expect("a part");
    let last = "template 0|for (variable 1), item 3 of 3|template 1";
    // The entity does not fit, then the item's last keyword, then the separator of the next.
    for (output, more) in [
        (until("&amp;") + 4, "|for (variable 1), item 2 of 3"),
        (until("&amp;") + 5, "|for (variable 1), item 2 of 3"),
        (until("&amp;>") + 7, "|for (variable 1), item 3 of 3"),
        (until("f") + 2, ""),
    ] {
        let way = set.way(12, 1_000, output).join("|");
        assert_eq!(way, format!("{last}{more}"), "{output}");
    }
    let row = "template 0|for (variable 1), item 1 of 3";
    assert_eq!(set.way(12, 1_000, until(".")).join("|"), row);
    assert_eq!(set.way(12, 1_000, text.len() - 1), ["template 0"]);
    assert_eq!(set.way(12, 1_000, 0), ["template 0"]);
    assert_eq!(set.way(10, 0, 100), ["template 0"]);
    assert_eq!(set.way(10, 3, 100).join("|"), row);
}

#[test]
fn the_way_by_name() {
    let set = Set::of(ROWS);
    let tables = Tables::of(&set.records[0], &set.records[1]);
    let is_for = |&node: &usize| {
        let head = set.records[1][node];
        crate::reasons::nodes::Form::of(head) == Some(crate::reasons::nodes::Form::For)
    };
    let fors = (tables.types.end..set.records[1].len()).filter(is_for);
    let names = Names {
        templates: words("main line"),
        variables: fors.zip(words("row word")).collect(),
        ..Names::default()
    };
    let answer = set.answer(12, 100);
    assert_eq!(answer.number, 10);
    assert_eq!(
        set.traced(&names, answer),
        [
            "template `main`",
            "for `row`, item 1 of 3",
            "template `line`",
            "for `word`, item 2 of 2"
        ]
    );
}

#[test]
fn a_template_that_expands_itself() {
    let set = Set::of(
        "class c 1 to 4 { 'a' } production p of n = type t = text c
         template a (x: t) of n = expand a (x) value \"a\"",
    );
    let mut lines = vec!["template 0"; 10];
    lines[4] = ".. 192 more ..";
    lines.push(
        "template 0 expands itself; the body of each expand is one level deeper, \
         and 200 levels are the most",
    );
    assert_eq!(set.way(11, 201, 100), lines);
    let fuel = set.way(10, 200, 100);
    assert_eq!(fuel, lines[..10]);
    assert_eq!(set.way(10, 10, 100)[4], ".. 2 more ..");
    assert_eq!(set.way(10, 9, 100), ["template 0"; 10]);
}

#[test]
fn templates_that_expand_one_another() {
    let set = Set::of(
        "class c 1 to 4 { 'a' } production p of n = \"(\" n \")\" production q of m = type t = yesno
         template main (x: t) of n = build p (expand a (x))
         template a (x: t) of n = build p (if x then expand b (x) else expand main (x))
         template b (x: t) of n = build p (expand a (x))
         value yes",
    );
    let names = Names {
        templates: words("main odd even"),
        ..Names::default()
    };
    let way = set.traced(&names, set.answer(1_000, 1_000));
    assert_eq!(
        way[..4],
        [
            "template `main`",
            "template `odd`",
            "template `even`",
            "template `odd`"
        ]
    );
    assert_eq!(way.len(), 11);
    let cycle = way.last().expect("a line");
    let (odd, even) = ("`odd` → `even` → `odd`", "`even` → `odd` → `even`");
    assert!(
        [odd, even].iter().any(|cycle_of| *cycle
            == format!(
                "templates {cycle_of} .. expand one another; the body of each expand is one level deeper, \
                 and 200 levels are the most"
            )),
        "{cycle}"
    );
}

#[test]
fn long_cycles_and_none() {
    let names = Names::default();
    let row: Vec<usize> = (0..12).chain([3, 20]).collect();
    let cycle = cycle(&row).expect("a cycle");
    assert_eq!(cycle, [3, 4, 5, 6, 7, 8, 9, 10, 11, 3]);
    assert_eq!(arrows(cycle, &names), "3 → 4 → 5 → 6 → 7 → 8 → .. → 3");
    let levels = [Level::Template(0), Level::Template(1)];
    assert_eq!(
        deep(&levels, &names),
        "a child is one level deeper than its node; the body of each expand is one level deeper, \
         and 200 levels are the most"
    );
}

/// All the closing keywords follow the same step, and stand at the same record.
#[test]
fn the_build_of_many_open_ones_that_did_not_fit() {
    let set = Set::of(
        "class c 1 to 4 { 'a' } production p of n = \"(\" n* \")\" type t = list t
         template a (x: t) of n = build p (sequence (for y in x do expand a (y))) value [[[]]]",
    );
    let answers = [3, 4, 5].map(|output| set.answer(100, output));
    assert!(answers.iter().all(|it| it.number == 12 && it.steps == 11));
    assert!(answers.iter().all(|it| it.place == answers[0].place));
    for (output, levels) in [(0, 1), (1, 3), (2, 5), (3, 5), (4, 3), (5, 1)] {
        assert_eq!(set.way(12, 100, output).len(), levels, "{output}");
    }
}

#[test]
fn every_fuel_and_every_output_has_its_way() {
    let folder = std::path::Path::new(env!("CARGO_MANIFEST_DIR")).join("../../examples");
    let read = |name| std::fs::read_to_string(folder.join(name)).expect("a description");
    let [podcast, media] = ["podcast/feed.txt", "media/feed.txt"].map(read);
    for description in [ROWS, &podcast, &media] {
        let set = Set::of(description);
        let finished = set.answer(100_000, 65_536);
        assert_eq!(finished.number, 0);
        let (steps, bytes) = (finished.steps as u32, finished.bytes as usize);
        for fuel in 0..steps {
            assert!(!set.way(10, fuel, 65_536).is_empty(), "fuel {fuel}");
        }
        for output in 0..bytes {
            assert!(!set.way(12, 100_000, output).is_empty(), "output {output}");
        }
    }
}

/// Each arm brings one variable in, and behind the match it is gone.
#[test]
fn arms_on_the_way() {
    let set = Set::of(
        "class c 1 to 4 { 'a'-'z' } production p of n = m* production q of m = c m* production r of m = c
         type t = text c type v = variant { a: t b: t } type l = list v
         template main (l: l) of n = build p (sequence (for v in l do match v (
           a as a then build q (place a sequence (
             match v (a as x then build r (place x) b as y then build r (place y))
             for w in l do match w (a as x then build r (place x) b as y then build r (place y))))
           b as b then build r (place b))))
         value [ case b \"k\" case a \"g\" ]",
    );
    let text = "kggkg";
    assert_eq!(set.answer(1_000, text.len()).number, 0);
    let second = "template 0|for (variable 1), item 2 of 2|case 0 (variable 2)";
    for (output, way) in [
        (
            0,
            "template 0|for (variable 1), item 1 of 2|case 1 (variable 2)",
        ),
        (1, second),
        (2, &format!("{second}|case 0 (variable 3)")),
        (
            3,
            &format!("{second}|for (variable 3), item 1 of 2|case 1 (variable 4)"),
        ),
        (
            4,
            &format!("{second}|for (variable 3), item 2 of 2|case 0 (variable 4)"),
        ),
    ] {
        assert_eq!(set.way(12, 1_000, output).join("|"), way, "{output}");
    }
}

#[test]
fn no_way_where_none_is_known() {
    let set = Set::of(ROWS);
    let traced = |fields| set.traced(&Names::default(), Answer::from_fields(fields));
    assert_eq!(traced([0, 0, 0, 7, 16]), [""; 0]);
    assert_eq!(traced([10, 2, 9, 20_000_001, 0]), [""; 0]);
    assert_eq!(traced([10, 2, 0, 3, 0]), [""; 0]);
    assert_eq!(traced([10, 2, 9, 10_000, 0]), [""; 0]);
    assert_eq!(traced([11, 2, 9, 5, 0]), [""; 0]);
    assert_eq!(traced([12, 2, 9, 5, 10_000]), [""; 0]);
}
