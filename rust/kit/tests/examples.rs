//! The examples: their descriptions give their streams, and their streams their texts.

use kit::assembly::assemble::Assembled;
use kit::assembly::data;
use kit::assembly::map::Map;
use kit::json;
use kit::language::description::{ClassForm, Value, ValueForm};
use kit::language::parser::parse;
use kit::mistake::end_of;
use kit::reasons::characters::is_admitted;
use kit::streams::record::{packed, Kind};
use kit::{assemble, Streams};
use std::fs;
use std::io::Write;
use std::path::{Path, PathBuf};
use std::process::{Command, Stdio};

/// A file of the repository.
fn file(name: &str) -> PathBuf {
    Path::new(env!("CARGO_MANIFEST_DIR"))
        .join("../..")
        .join(name)
}

fn read(name: &str) -> Vec<u8> {
    let path = file(name);
    fs::read(&path).unwrap_or_else(|error| panic!("{}: {error}", path.display()))
}

fn streams(example: &str) -> Streams {
    let stream = |name: &str| read(&format!("examples/{example}/{name}.blk"));
    Streams {
        grammar: stream("grammar"),
        templates: stream("template"),
        value: stream("value"),
    }
}

fn description(example: &str) -> String {
    String::from_utf8(read(&format!("examples/{example}/feed.txt"))).expect("UTF-8")
}

fn assembled(example: &str) -> Streams {
    assemble(&description(example)).expect("a description without mistakes")
}

/// The steps and the text of an example, by the proved library.
fn rendered(example: &str) -> (u64, Vec<u8>) {
    text_of(streams(example))
}

fn text_of(streams: Streams) -> (u64, Vec<u8>) {
    let Streams {
        grammar,
        templates,
        value,
    } = streams;
    let (mut output, mut scratch) = (vec![0; 65_536], [0; feed::SCRATCH]);
    let answer = feed::evaluate(
        &grammar,
        &templates,
        &value,
        1_000_000,
        &mut output,
        &mut scratch,
    );
    let finished = answer.finished().expect("a finished text");
    (finished.steps, finished.of(&output).to_vec())
}

#[test]
fn the_papers_description_gives_its_streams() {
    assert_eq!(assembled("harbour"), streams("harbour"));
}

/// The program `harbour` runs on the same streams. They have one block each, so that their checks are
/// what they were before checks started from the block before.
#[test]
fn the_papers_program_has_its_streams() {
    for name in ["grammar.blk", "template.blk", "value.blk"] {
        let stream = read(&format!("examples/harbour/{name}"));
        assert_eq!(stream, read(&format!("crates/harbour/data/{name}")));
        assert_eq!(stream.len(), feed::BLOCK);
    }
}

/// The grammar of the paper's example, record by record.
const GRAMMAR: [[u8; 8]; 15] = [
    [1, 0, 1, 0, 4, 0, 2, 0],
    [2, 0x61, 0, 0, 0x7a, 0, 0, 0],
    [2, 0x70, 0x03, 0, 0xff, 0x03, 0, 0],
    [3, 0, 0, 0, 0, 0, 3, 0],
    [4, 0, 1, 0, 0, 0, 0, 0],
    *b"[\0\0\0\0\0\0\0",
    [4, 3, 1, 0, 0, 0, 0, 0],
    [4, 0, 1, 0, 0, 0, 0, 0],
    *b"]\0\0\0\0\0\0\0",
    [3, 1, 1, 0, 0, 0, 3, 0],
    [4, 0, 1, 0, 0, 0, 0, 0],
    *b"<\0\0\0\0\0\0\0",
    [4, 1, 0, 0, 0, 0, 0, 0],
    [4, 0, 1, 0, 0, 0, 0, 0],
    *b">\0\0\0\0\0\0\0",
];

/// Its templates.
const TEMPLATES: [[u8; 8]; 11] = [
    [1, 0, 0, 0, 0, 0, 0, 0],
    [1, 2, 0, 0, 0, 0, 0, 0],
    [3, 1, 0, 0, 9, 0, 0, 0],
    [4, 0, 1, 0, 0, 0, 0, 0],
    [5, 0, 0, 0, 7, 0, 1, 0],
    [5, 6, 0, 0, 6, 0, 1, 0],
    [5, 5, 0, 0, 5, 0, 0, 0],
    [6, 0, 0, 0, 0, 0, 0, 0],
    [5, 0, 1, 0, 3, 0, 1, 0],
    [5, 2, 0, 0, 2, 0, 0, 0],
    [6, 1, 0, 0, 0, 0, 0, 0],
];

/// Its value.
const VALUE: [[u8; 8]; 5] = [
    [3, 0, 0, 0, 5, 0, 2, 0],
    [1, 0, 2, 0, 2, 0, 0, 0],
    *b"ab\0\0\0\0\0\0",
    [1, 0, 8, 0, 2, 0, 0, 0],
    [0xce, 0xb1, 0xce, 0xb2, 0xce, 0xb3, 0xce, 0xb4],
];

#[track_caller]
fn holds(kind: u8, stream: &[u8], records: &[[u8; 8]]) {
    let mut payload = [1; feed::PAYLOAD];
    assert_eq!(
        feed::unpack(kind, stream, &mut payload).fields(),
        [0, 0, 0, 0, 504]
    );
    let (found, tail) = payload.split_at(records.len() * 8);
    assert_eq!(found, records.as_flattened());
    assert!(tail.iter().all(|&byte| byte == 0));
}

#[test]
fn the_papers_streams_hold_its_records() {
    let Streams {
        grammar,
        templates,
        value,
    } = streams("harbour");
    holds(1, &grammar, &GRAMMAR);
    holds(2, &templates, &TEMPLATES);
    holds(3, &value, &VALUE);
}

#[test]
fn the_papers_text() {
    let (steps, text) = rendered("harbour");
    assert_eq!(steps, 7);
    assert_eq!(text, "[<ab><αβγδ>]".as_bytes());
    assert_eq!(text, read("examples/harbour/text.txt"));
}

#[test]
fn the_podcast_description_gives_its_streams() {
    assert_eq!(assembled("podcast"), streams("podcast"));
}

#[test]
fn the_media_description_gives_its_streams() {
    assert_eq!(assembled("media"), streams("media"));
}

/// The media example has its data as JSON, too.
#[test]
fn the_media_data_gives_its_value() {
    let text = description("media");
    let tree = parse(&text).expect("a tree");
    let set = Assembled::of(&tree, end_of(&text)).expect("streams");
    let json = json::parse(&read("examples/media/data.json")).expect("JSON");
    let sheet = data::value(&tree, &set, &json).expect("data of the declared type");
    let value = packed(Kind::Value, &sheet.records).expect("a stream");
    assert_eq!(value, streams("media").value);
}

/// `explain` and `dump` of an example go by its map.
#[test]
fn the_examples_have_their_maps() {
    for example in ["harbour", "podcast", "media"] {
        let map = Map::read(&read(&format!("examples/{example}/map.json"))).expect("a map");
        assert_eq!(map.description, "feed.txt");
        let tree = parse(&description(example)).expect("a tree");
        let set = Assembled::of(&tree, end_of(&description(example))).expect("streams");
        assert_eq!(map, Map::of("feed.txt", &set));
    }
}

#[test]
fn the_podcast_text() {
    assert_eq!(rendered("podcast").1, read("examples/podcast/feed.xml"));
}

#[test]
fn the_media_text() {
    assert_eq!(rendered("media").1, read("examples/media/feed.xml"));
}

/// What an XML parser that is not ours reads in a rendered feed.
fn parsed(example: &str) -> String {
    let mut parser = Command::new("python3")
        .arg(file("rust/kit/tests/feed_texts.py"))
        .stdin(Stdio::piped())
        .stdout(Stdio::piped())
        .spawn()
        .expect("python3, whose XML parser reads the feed, can be run");
    parser
        .stdin
        .take()
        .expect("its input")
        .write_all(&rendered(example).1)
        .expect("written");
    let output = parser.wait_with_output().expect("its end");
    assert!(output.status.success());
    String::from_utf8(output.stdout).expect("UTF-8")
}

/// The texts of a value that are titles and notes, in their order.
fn titles_and_notes(value: &Value, found: &mut Vec<String>) {
    match &value.form {
        ValueForm::List(items) => items.iter().for_each(|item| titles_and_notes(item, found)),
        ValueForm::Record(children) => {
            for (label, child) in children {
                let label = label.as_ref().map(|label| label.word.as_str());
                match &child.form {
                    ValueForm::Text(text) if matches!(label, Some("title" | "note")) => {
                        found.push(String::from_utf8(text.bytes.clone()).expect("UTF-8"));
                    }
                    _ => titles_and_notes(child, found),
                }
            }
        }
        ValueForm::Case(_, content) => titles_and_notes(content, found),
        ValueForm::Text(_) | ValueForm::YesNo(_) => {}
    }
}

/// The parser gives back exactly what was typed: the plain titles and notes of the description.
fn says_what_was_typed(example: &str, parts: &[&str]) {
    let tree = parse(&description(example)).expect("a tree");
    let value = tree.value.expect("a value");
    let mut typed = Vec::new();
    titles_and_notes(&value, &mut typed);
    assert_eq!(parsed(example), typed.join("\n") + "\n");
    for part in parts {
        assert!(typed.iter().any(|text| text.contains(part)), "{part}");
    }
}

#[test]
fn the_podcast_says_what_was_typed() {
    says_what_was_typed("podcast", &["Salt & Rope", "<b>", "\"", "'", "Φωνές"]);
}

#[test]
fn the_media_feed_says_what_was_typed() {
    says_what_was_typed("media", &["Salt & Rope", "<by", "\"", "'", "Φωνές"]);
}

/// The characters in the ranges of an example's classes.
fn ranged(example: &str) -> impl Iterator<Item = char> {
    let classes = parse(&description(example)).expect("a tree").classes;
    let ranges = classes.into_iter().flat_map(|class| match class.form {
        ClassForm::Plain { ranges, .. } => ranges,
        ClassForm::Escaped(_) => Vec::new(),
    });
    ranges
        .flat_map(|range| range.lowest..=range.highest)
        .filter_map(char::from_u32)
}

/// No class of the podcast takes a control character.
#[test]
fn the_podcasts_classes_hold_no_control_character() {
    assert_eq!(ranged("podcast").find(|it| it.is_control()), None);
}

/// What the examples' ranges hold, they let in.
#[test]
fn the_examples_classes_hold_only_characters_that_xml_admits() {
    for example in ["harbour", "podcast", "media"] {
        assert_eq!(ranged(example).find(|&it| !is_admitted(it)), None);
    }
}

/// The description of escaped classes in the format's page gives the text that it promises.
#[test]
fn the_formats_escaped_title_is_written() {
    let format = String::from_utf8(read("rust/kit/FORMAT.md")).expect("UTF-8");
    let fenced = format
        .split("```")
        .find(|part| part.contains("= escaped title"));
    let description = fenced.expect("a description of an escaped class");
    let (_, promised) = description.split_once("# ").expect("a comment");
    assert_eq!(
        text_of(assemble(description).expect("streams")).1,
        promised.trim().as_bytes()
    );
}

/// So does the one with a variant, and its data as JSON is that of the page's table.
#[test]
fn the_formats_media_are_written() {
    let format = String::from_utf8(read("rust/kit/FORMAT.md")).expect("UTF-8");
    let fenced = format
        .split("```")
        .find(|part| part.contains("= variant {"));
    let description = fenced.expect("a description with a variant");
    let (_, promised) = description.split_once("# ").expect("a comment");
    let streams = assemble(description).expect("streams");
    let row = format
        .lines()
        .find(|line| line.starts_with("| `variant {") && line.contains("an object"));
    let row = row.expect("a row");
    let (start, end) = (
        row.find("{ \"").expect("JSON"),
        row.rfind('`').expect("its end"),
    );
    let data = format!(
        "[ {{ \"audio\": {{ \"title\": \"salt\" }} }}, {} ]",
        &row[start..end]
    );
    let tree = parse(description).expect("a tree");
    let set = Assembled::of(&tree, end_of(description)).expect("streams");
    let json = json::parse(data.as_bytes()).expect("JSON");
    let sheet = data::value(&tree, &set, &json).expect("data of the declared type");
    assert_eq!(
        packed(Kind::Value, &sheet.records).expect("a stream"),
        streams.value
    );
    assert_eq!(text_of(streams).1, promised.trim().as_bytes());
}

#[test]
fn the_format_has_the_papers_description() {
    let format = String::from_utf8(read("rust/kit/FORMAT.md")).expect("UTF-8");
    assert!(format.contains(&description("harbour")));
}
