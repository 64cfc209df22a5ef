//! Two machines agree on generated and damaged sets; every fault put in is found.

use build::{mend, mend_each, with_check, BLOCK, CHECK_START, PAYLOAD};
use build::{Element, Grammar, Node, Path, Templates, Value};
use trials::admission::Admission;
use trials::chains::Chain;
use trials::compare::{self, Call, Conversion};
use trials::faulty::Fault;
use trials::generate::{self, Streams};
use trials::matching::Matching;
use trials::mutants::Mutant;
use trials::numbers::Numbering;
use trials::run::run;
use trials::unescaping::Unescaping;
use trials::{Machine, Random, Reference, SECOND};

/// The seed of `TRIALS_SEED`, or 1.
fn seed() -> u64 {
    let seed = std::env::var("TRIALS_SEED").ok();
    seed.and_then(|seed| seed.parse().ok()).unwrap_or(1)
}

#[test]
fn no_difference_and_every_number_is_reached() {
    println!("seed {}", seed());
    match run(&Reference, &SECOND, seed(), 0..6_000) {
        Ok(tally) => {
            println!("{tally}");
            assert_eq!(tally.absent(), [0; 0], "numbers that no call answered");
            let [_, early, late] = tally.places;
            assert!(early > 200 && late > 50, "2 behind block 0: too rare");
        }
        Err(failure) => panic!("{failure}"),
    }
}

#[test]
fn every_mutant_is_found() {
    let mut missed = Vec::new();
    for mutant in Mutant::all() {
        match run(&Reference, &mutant, seed(), 0..8_000) {
            Ok(_) => missed.push(mutant),
            Err(failure) => println!("found after {:>4} cases: {failure}", failure.case + 1),
        }
    }
    assert_eq!(missed, [], "mutants that aren't found");
}

/// What the faults in separators, entities, unescape calls, admission, numbers, matches and chains of
/// checks are put into is right without one.
#[test]
fn a_machine_without_a_fault_is_no_mutant() {
    let chains = [Mutant::Judges, Mutant::Unpacks, Mutant::Packs].map(|part| part(Chain::Right));
    let others = [
        Mutant::Walks(Fault::None),
        Mutant::Unescapes(Unescaping::Right),
        Mutant::Admits(Admission::Right),
        Mutant::Numbers(Numbering::Right),
        Mutant::Matches(Matching::Right),
    ];
    for right in [&others[..], &chains].concat() {
        if let Err(failure) = run(&Reference, &right, seed(), 0..2_000) {
            panic!("{failure}");
        }
    }
}

#[test]
fn sets_drawn_without_slips_are_accepted() {
    let mut finished = 0;
    let cases = 1_500;
    for case in 0..cases {
        let streams = generate::accepted(&mut Random::for_case(seed(), case));
        let mut out = vec![0; 65_536];
        let mut scratch = [0; 4_800];
        let fields = Reference.evaluate(streams.parts(), 100_000, &mut out, &mut scratch);
        let walked = fields[0] == 0 || fields[0] >= 10;
        assert!(walked, "seed {} case {case}: {fields:?}", seed());
        finished += u64::from(fields[0] == 0);
    }
    println!("{finished} of {cases} finish");
    assert!(finished > cases / 2);
}

#[test]
fn what_is_packed_comes_back_with_zero_fill_at_most() {
    let mut random = Random::new(seed());
    for _ in 0..400 {
        let length = 8 * random.between(1, 8_064);
        let payload: Vec<u8> = (0..length).map(|_| random.byte()).collect();
        let kind = random.between(1, 3) as u8;
        let (mut stream, mut back) = (vec![0xAA; 65_536], vec![0xAA; 64_512]);
        let [number, .., bytes] = SECOND.pack(kind, &payload, &mut stream);
        assert_eq!(number, 0);
        stream.truncate(bytes as usize);
        let [number, .., bytes] = SECOND.unpack(kind, &stream, &mut back);
        assert_eq!(number, 0);
        let (same, fill) = back[..bytes as usize].split_at(length);
        assert!(same == payload, "the payload of {length} bytes");
        assert!(fill.len() < 504 && fill.iter().all(|&byte| byte == 0));
    }
}

/// The stream of a text of so many blocks and nearly nothing but one letter.
fn letters(blocks: usize, letter: &str) -> Vec<u8> {
    Value::text(letter.repeat(blocks * PAYLOAD - 8)).stream()
}

/// Both machines unpack a value stream, or refuse it at this block.
#[track_caller]
fn unpacks(stream: &[u8], refused: Option<usize>) {
    let room = stream.len() / BLOCK * PAYLOAD;
    let fields = compare::conversion(&Reference, &SECOND, Conversion::Unpack(3), stream, room);
    let expected = match refused {
        Some(place) => [2, 0, place as u64, 0, 0],
        None => [0, 0, 0, 0, room as u64],
    };
    assert_eq!(fields.map_err(|found| found.to_string()), Ok(expected));
}

/// The first blocks of one stream and the rest of another, at every block of streams of every number
/// of blocks that machines may take at once: refused at the first block of the other one.
#[test]
fn every_joint_of_two_uploads() {
    for count in 1..=13 {
        let [one, other] = ["o", "x"].map(|letter| letters(count, letter));
        for joint in 0..=count {
            let at = joint * BLOCK;
            let joined = [&one[..at], &other[at..]].concat();
            let place = Some(joint).filter(|joint| (1..count).contains(joint));
            unpacks(&joined, place);
        }
    }
}

/// Old checks are refused at the block after the first whose check isn't 2166136261, unless that is
/// the last.
#[test]
fn old_checks_are_refused_after_the_first_that_is_no_chance() {
    for count in 1..=6 {
        for chances in 0..=count {
            let mut old = letters(count, "o");
            for block in old.chunks_exact_mut(BLOCK).take(chances) {
                with_check(block, CHECK_START, CHECK_START);
            }
            mend_each(&mut old);
            unpacks(&old, Some(chances + 1).filter(|&place| place < count));
        }
    }
}

/// The paper's example.
fn example() -> Streams {
    let keyword = |text: &str| Element::keyword(text);
    let mut grammar = Grammar::new();
    grammar.class(1, 4, &[(0x61, 0x7A), (0x370, 0x3FF)]);
    grammar.production(0, [keyword("["), Element::Repetition(1), keyword("]")]);
    grammar.production(1, [keyword("<"), Element::Class(0), keyword(">")]);
    let mut templates = Templates::new();
    let title = templates.text(0);
    let titles = templates.list(title);
    let entry = Node::build(1, [Node::place(Path::variable(1))]);
    let entries = Node::sequence([Node::each(Path::variable(0), entry)]);
    templates.template(0, [titles], Node::build(0, [entries]));
    let value = Value::list([Value::text("ab"), Value::text("αβγδ")]);
    Streams::of(&grammar, &templates, &value)
}

/// Classes of both kinds, and every form of element.
fn every_element() -> Grammar {
    let keyword = |text: &str| Element::keyword(text);
    let mut grammar = Grammar::new();
    grammar.class(0, 9, &[(0x26, 0x3C), (0x61, 0x7A), (0x1F00, 0x1FFF)]);
    grammar.class(1, 1, &[(0x10000, 0x10FFFF)]);
    let escaped = Element::Class(grammar.escaped(0));
    let (row, list) = (Element::Repetition(6), Element::separated(6, ", and then "));
    grammar.production(5, [keyword("begin "), row, keyword(""), list]);
    grammar.production(
        6,
        [Element::Class(0), Element::Nonterminal(7), keyword(";")],
    );
    grammar.production(6, [Element::Class(1)]);
    grammar.production(7, [keyword("a longer keyword")]);
    grammar.production(7, []);
    grammar.production(6, [escaped.clone(), escaped]);
    grammar
}

/// A match on variable 1, with the text that each content is or has, and a node behind it.
fn by_case(behind: impl Fn(Path) -> Node) -> Node {
    let entry = Path::variable(2).field(0);
    let arms = [Path::variable(2), entry].map(|path| {
        let text = Node::place(path);
        Node::build(1, [text, behind(Path::variable(0).field(1))])
    });
    Node::by_case(Path::variable(1), arms)
}

/// All forms of records in one set: every class, element, type, node and value.
fn all_forms() -> Streams {
    let mut templates = Templates::new();
    let text = templates.text(0);
    let yes_no = templates.yes_no();
    let entry = templates.record([text, yes_no, text]);
    let entries = templates.list(entry);
    let variant = templates.variant([text, entry]);
    let variants = templates.list(variant);
    let root = templates.record([entries, yes_no, variants]);
    let either = |path: Path| Node::either(path, Node::build(3, []), Node::build(4, []));
    let field = |number| Path::variable(1).field(number);
    let body = Node::build(1, [Node::place(field(2)), either(field(1))]);
    let pair = Node::build(5, [Node::literal("&lt;"), Node::place(field(2))]);
    let items = Node::sequence([
        Node::each(Path::variable(0).field(0), body),
        Node::each(Path::variable(0).field(0), pair),
        Node::build(2, [Node::literal("\u{10348}")]),
        Node::expand(1, [Path::variable(0).field(1), Path::variable(0)]),
        Node::each(Path::variable(0).field(2), by_case(either)),
    ]);
    templates.template(5, [root], Node::build(0, [items.clone(), items]));
    let body = Node::build(1, [Node::literal("ἀ"), either(Path::variable(0))]);
    templates.template(6, [yes_no, root], body);
    let entry =
        |text: &str| Value::record([Value::text(""), Value::YesNo(true), Value::text(text)]);
    let list = Value::list([entry("abc&def'i"), entry("ἄἄ")]);
    let cases = [
        Value::case(0, Value::text("abc")),
        Value::case(1, entry("c")),
    ];
    let value = Value::record([list, Value::YesNo(false), Value::list(cases)]);
    Streams::of(&every_element(), &templates, &value)
}

/// Tries some values at every byte of every stream of a set, with the checks mended and as found.
fn try_every_byte(streams: &Streams, values: impl Fn(u8) -> Vec<u8>) -> [usize; 13] {
    let call = Call {
        fuel: 1_000,
        out: 400,
        scratch: 4_800,
    };
    let mut reached = [0; 13];
    for index in 0..3 {
        let mut changed = streams.clone();
        for at in 0..streams.parts()[index].len() {
            let byte = streams.parts()[index][at];
            for value in values(byte) {
                for mended in [true, false] {
                    let stream = changed.part_mut(index);
                    stream[at] = value;
                    if mended {
                        mend(stream);
                    }
                    let fields = compare::evaluate(&Reference, &SECOND, changed.parts(), call);
                    let fields = fields.unwrap_or_else(|difference| {
                        panic!("stream {index} byte {at} = {value}: {difference}")
                    });
                    reached[fields[0] as usize] += 1;
                    changed = streams.clone();
                }
            }
        }
    }
    reached
}

#[test]
fn every_byte_of_the_papers_example() {
    let reached = try_every_byte(&example(), |byte| {
        let near = [byte.wrapping_add(1), byte.wrapping_sub(1), byte ^ 0x80];
        [&near[..], &[0, 1, 2, 3, 4, 5, 6, 7, 200, 255]].concat()
    });
    println!("{reached:?}");
    for number in [0, 2, 3, 5, 6, 7, 8] {
        assert!(reached[number] > 0, "{number} isn't reached");
    }
}

/// Every fuel and every length of the output: limits before, in and behind each piece of the text.
#[test]
fn every_fuel_and_room_of_a_set_of_all_forms() {
    let streams = all_forms();
    let call = |fuel, out| {
        let scratch = 4_800;
        let call = Call { fuel, out, scratch };
        compare::evaluate(&Reference, &SECOND, streams.parts(), call)
            .unwrap_or_else(|difference| panic!("{difference}"))
    };
    let [number, _, _, steps, bytes] = call(1_000, 1_000);
    assert_eq!(number, 0);
    let mut reached = [0; 13];
    for fuel in 0..=steps as u32 {
        for out in 0..=bytes as usize {
            reached[call(fuel, out)[0] as usize] += 1;
        }
    }
    println!("{reached:?}");
    assert!(reached[10] > 0 && reached[12] > 0 && reached[0] == 1);
}

#[test]
fn every_byte_of_a_set_of_all_forms() {
    let streams = all_forms();
    let mut out = [0; 400];
    let fields = Reference.evaluate(streams.parts(), 1_000, &mut out, &mut [0; 4_800]);
    assert_eq!(fields[0], 0, "{fields:?}");
    let reached = try_every_byte(&streams, |byte| {
        vec![byte.wrapping_add(1), byte.wrapping_sub(1), 0, 1, 6, 255]
    });
    println!("{reached:?}");
    for number in [0, 2, 3, 5, 7, 8] {
        assert!(reached[number] > 0, "{number} isn't reached");
    }
}

/// Every text of up to five of these pieces, which make up entities, cut ones, other references and
/// UTF-8 of two bytes.
#[test]
fn every_short_text_of_the_pieces_of_entities() {
    let pieces: [&[u8]; 12] = [
        b"&", b"amp", b"lt", b"quot", b";", b"#38", b"a", b"<", b"'", b"\xCE", b"\xB1", b"&apos;",
    ];
    let mut texts = vec![vec![]];
    let mut first = 0;
    let mut reached = [0; 13];
    for _ in 0..=4 {
        let last = texts.len();
        for at in first..last {
            for piece in pieces {
                texts.push([&texts[at][..], piece].concat());
            }
        }
        first = last;
    }
    for text in &texts {
        for room in [text.len(), text.len().saturating_sub(5), 0] {
            let unescape = Conversion::Unescape;
            let fields = compare::conversion(&Reference, &SECOND, unescape, text, room)
                .unwrap_or_else(|difference| panic!("{text:02x?}: {difference}"));
            reached[fields[0] as usize] += 1;
        }
    }
    println!("{} texts: {reached:?}", texts.len());
    assert!(reached[0] > 1_000 && reached[8] > 1_000 && reached[12] > 1_000);
}
