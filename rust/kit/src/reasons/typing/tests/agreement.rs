//! What is found, held against the proved library over streams with changed bytes.

use super::*;
use std::collections::BTreeMap;

/// Every node of a template stream, in record order.
fn nodes(templates: &[Record]) -> Vec<usize> {
    let tables = Tables::of(&[], templates);
    let mut found = Vec::new();
    let mut due: Vec<usize> = tables.templates.iter().rev().map(|it| it.body).collect();
    while let Some(node) = due.pop() {
        found.push(node);
        let below: Vec<usize> = children(templates, node).collect();
        due.extend(below.into_iter().rev());
    }
    found
}

/// Holds what is found against the library's answer: no fault in a set that is accepted, else one at the
/// place of its refusal, and none at the nodes before it. Gives the rule that failed.
fn rule_of(grammar: &[Record], blocks: &[u8], payload: &[u8]) -> Option<&'static str> {
    let mut stream = vec![0; payload.len().div_ceil(feed::PAYLOAD) * feed::BLOCK];
    assert_eq!(feed::pack(2, payload, &mut stream).number, 0);
    let answer = feed::check(blocks, &stream);
    if answer.number != 0 && answer.number != 7 {
        return None;
    }
    let templates = Found::read(&stream, Some(Kind::Templates)).records;
    let (known, unknown) = (names(&templates), Names::default());
    let found = |node: usize| fault(grammar, &templates, &known, node);
    let mut all = std::iter::once(0).chain(nodes(&templates));
    let first = all.find(|&node| found(node).is_some());
    let place = usize::try_from(answer.place).expect("a record");
    assert_eq!(first, (answer.number == 7).then_some(place), "{payload:?}");
    let named = found(first?)?;
    let numbered = fault(grammar, &templates, &unknown, first?)?;
    assert_eq!(named.rule, numbered.rule);
    for said in [&named.said, &numbered.said] {
        assert!(!said.is_empty() && said.iter().all(|line| !line.is_empty()));
    }
    Some(named.rule)
}

/// Changes every byte of a template stream, and gives the rules that fail then and how often.
fn failed(streams: &crate::Streams, changes: &[fn(u8) -> u8]) -> BTreeMap<&'static str, usize> {
    let grammar = Found::read(&streams.grammar, Some(Kind::Grammar)).records;
    let mut payload = vec![0; streams.templates.len() / feed::BLOCK * feed::PAYLOAD];
    assert_eq!(feed::unpack(2, &streams.templates, &mut payload).number, 0);
    let mut failed = BTreeMap::new();
    for index in 0..payload.len() {
        let byte = payload[index];
        for change in changes {
            payload[index] = change(byte);
            if let Some(rule) = rule_of(&grammar, &streams.grammar, &payload) {
                *failed.entry(rule).or_default() += 1;
            }
        }
        payload[index] = byte;
    }
    failed
}

/// The streams of an example.
fn example(name: &str) -> crate::Streams {
    let folder = std::path::Path::new(env!("CARGO_MANIFEST_DIR")).join("../../examples");
    let file = folder.join(name).join("feed.txt");
    crate::assemble(&std::fs::read_to_string(file).expect("a description")).expect("streams")
}

/// The ways to change a byte: each other value that differs in one bit, the neighbours, and some that
/// stand for something in a record.
const CHANGES: &[fn(u8) -> u8] = &[
    |b| b ^ 1,
    |b| b ^ 2,
    |b| b ^ 4,
    |b| b ^ 8,
    |b| b ^ 16,
    |b| b ^ 32,
    |b| b ^ 64,
    |b| b ^ 128,
    |b| b.wrapping_add(1),
    |b| b.wrapping_sub(1),
    |_| 0,
    |_| 11,
    |_| b'&',
];

#[test]
fn faults_are_where_the_library_refuses() {
    for streams in ["harbour", "podcast", "media"].map(example) {
        let failed = failed(&streams, CHANGES);
        assert!(failed.values().sum::<usize>() > 40, "{failed:?}");
    }
    let failed = failed(&crate::assemble(SMALL).expect("streams"), CHANGES);
    let rules = [CLASS, LEXEME, ADMITTED, ESCAPED, NONTERMINAL, TYPING];
    for rule in rules {
        assert!(failed.contains_key(rule), "{rule}: {failed:?}");
    }
}

/// A set with matches: as an item, in a for, in an arm, and as a body.
const MEDIA: &str = r#"
class title 1 to 4 { 'a'-'z' } class number 1 to 4 { '0'-'9' }
production feed of rss = item*(", ") "." production sound of item = "a" title
production film of item = "v" title number flag production yes of flag = "y" production no of flag =
type title = text title type number = text number type flag = yesno
type audio = record { title: title, loud: flag }
type size = variant { wide: number, other: flag }
type video = record { title: title, size: size, note: title }
type medium = variant { audio: audio, video: video, text: title }
type media = list medium
type page = record { first: medium, media: media }
template main (page: page) of rss =
  build feed (sequence (
    match page.first (
      audio as audio then build sound (place audio.title)
      video as video then expand film (video)
      text as text then build sound (place text))
    for medium in page.media do match medium (
      audio as audio then if audio.loud then build sound (place audio.title) else build sound (literal "a")
      video as video then match video.size (
        wide as wide then build film (place video.title place wide build yes)
        other as other then expand film (video))
      text as text then build sound (place text))))
template film (video: video) of item =
  match video.size (
    wide as wide then build film (place video.note place wide build no)
    other as loud then build film (place video.note literal "1" if loud then build yes else build no))
value { case text "a" [] }"#;

#[test]
fn faults_are_where_the_library_refuses_with_matches() {
    let failed = failed(&crate::assemble(MEDIA).expect("streams"), CHANGES);
    for rule in [
        CLASS,
        LEXEME,
        COUNTS,
        NONTERMINAL,
        REPETITION,
        MATCH,
        TYPING,
    ] {
        assert!(failed.contains_key(rule), "{rule}: {failed:?}");
    }
}

/// The same set behind so many other productions that the numbers of its own are no bytes.
#[test]
fn faults_are_where_the_library_refuses_above_255_productions() {
    let others: String = (0..300)
        .map(|number| format!("production other{number} of other =\n"))
        .collect();
    let streams = crate::assemble(&(others + SMALL)).expect("streams");
    let failed = failed(&streams, CHANGES);
    for rule in [CLASS, COUNTS, NONTERMINAL, TYPING] {
        assert!(failed.contains_key(rule), "{rule}: {failed:?}");
    }
}

/// Other forms with the same records: a build for a sequence, a place for an if's branch, and so on. Each
/// node in turn stands where each other stood, whole, and its neighbours' sizes are kept right.
#[test]
fn nodes_that_change_their_places() {
    let failed = exchanged(SMALL);
    for rule in [CLASS, NONTERMINAL, REPETITION, TYPING] {
        assert!(failed.contains_key(rule), "{rule}: {failed:?}");
    }
    let failed = exchanged(MEDIA);
    for rule in [CLASS, NONTERMINAL, REPETITION, MATCH, TYPING] {
        assert!(failed.contains_key(rule), "{rule}: {failed:?}");
    }
}

/// The rules that fail where nodes of a set stand for others, and how often.
fn exchanged(description: &str) -> BTreeMap<&'static str, usize> {
    let streams = crate::assemble(description).expect("streams");
    let grammar = Found::read(&streams.grammar, Some(Kind::Grammar)).records;
    let templates = Found::read(&streams.templates, Some(Kind::Templates)).records;
    let all = nodes(&templates);
    let mut failed: BTreeMap<&'static str, usize> = BTreeMap::new();
    for &to in &all {
        for &from in &all {
            let payload = replaced(&templates, to, from);
            if let Some(rule) = rule_of(&grammar, &streams.grammar, &payload) {
                *failed.entry(rule).or_default() += 1;
            }
        }
    }
    failed
}

/// The payload of a template stream in which the node `from` also stands in the place of the node `to`.
fn replaced(templates: &[Record], to: usize, from: usize) -> Vec<u8> {
    let size = |node: usize| usize::from(templates[node].c());
    let tables = Tables::of(&[], templates);
    let number = tables.template_around(to).expect("a template");
    let template = &tables.templates[number];
    let mut records = templates.to_vec();
    let way = crate::reasons::nodes::down_to(templates, template.body, to).expect("a way");
    for &above in way[..way.len() - 1].iter().chain([&template.head]) {
        let head = records[above];
        let grown = head.c() + templates[from].c() - templates[to].c();
        records[above] = Record::new(head.kind(), head.a(), [head.b(), grown, head.d()]);
    }
    let node = templates[from..from + size(from)].to_vec();
    records.splice(to..to + size(to), node);
    let used = records
        .iter()
        .rposition(|it| !it.is_zero())
        .map_or(0, |it| it + 1);
    records[..used].iter().flat_map(|record| record.0).collect()
}
