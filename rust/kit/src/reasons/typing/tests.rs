//! Each typing rule broken in a small set: the sentence, and the lines with numbers and by name.

mod agreement;
mod classes;
mod nonterminals;
mod others;

use super::*;
use crate::reasons::explain::words;
use crate::reasons::nodes::{children, Form};
use crate::reasons::paper::{ADMITTED, CLASS, COUNTS, ESCAPED, LEXEME, MATCH, NONTERMINAL};
use crate::streams::record::{Found, Kind};

const SMALL: &str = r#"
class title 1 to 4 { 'a'-'z' } class address 1 to 9 { 'a'-'z' ':' } class xml = escaped title
production feed of rss = "<" title address xml flag item* ">"
production episode of item = title address
production advert of item = "ad"
production mark of chapter = "m" title
production yes of flag = "y"
type title = text title type address = text address type flag = yesno
type sound = record { address: address, length: title }
type episode = record { title: title, sound: sound, loud: flag }
type episodes = list episode
type channel = record { title: title, link: address, loud: flag, episodes: episodes }
type note = text title
template main (channel: channel) of rss =
  build feed (
    place channel.title place channel.link literal "a" expand flag (channel.loud)
    sequence (for episode in channel.episodes do expand item (episode channel.title) build advert)
  )
template item (episode: episode, note: title) of item =
  if episode.loud then build episode (place note place episode.sound.address) else build advert
template flag (loud: flag) of flag = build yes
value { "a" "b" no [] }"#;

/// The names of the small set's things, and of its variables where the templates are.
fn names(templates: &[Record]) -> Names {
    let tables = Tables::of(&[], templates);
    let parameters = tables.templates.iter().flat_map(|it| it.parameters.clone());
    let parameters = parameters.zip(words("channel episode note loud"));
    let is_for = |&node: &usize| Form::of(templates[node]) == Some(Form::For);
    let nodes = (0..templates.len()).filter(is_for);
    Names {
        classes: words("title address xml"),
        productions: words("feed episode advert mark yes"),
        nonterminals: words("rss item chapter flag"),
        types: words("title address flag sound episode episodes channel note"),
        fields: [
            "",
            "",
            "",
            "address length",
            "title sound loud",
            "",
            "title link loud episodes",
        ]
        .map(words)
        .to_vec(),
        templates: words("main item flag"),
        variables: parameters.chain(nodes.zip(words("episode"))).collect(),
        ..Names::default()
    }
}

/// What fails in the small set with another part: the rule, the lines with numbers, and those by name.
fn failing(from: &str, to: &str) -> (&'static str, Vec<String>, Vec<String>) {
    assert!(SMALL.contains(from), "{from}");
    let streams = crate::assemble(&SMALL.replacen(from, to, 1)).expect("streams");
    let (grammar, templates, node) = refused(&streams);
    let by_number = fault(&grammar, &templates, &Names::default(), node).expect("a fault");
    let by_name = fault(&grammar, &templates, &names(&templates), node).expect("a fault");
    assert_eq!(by_number.rule, by_name.rule);
    (by_number.rule, by_number.said, by_name.said)
}

/// The records of a set's grammar and templates, and the node that the library refuses by 7.
fn refused(streams: &crate::Streams) -> (Vec<Record>, Vec<Record>, usize) {
    let answer = feed::check(&streams.grammar, &streams.templates);
    assert_eq!((answer.number, answer.kind), (7, 2));
    let grammar = Found::read(&streams.grammar, Some(Kind::Grammar)).records;
    let templates = Found::read(&streams.templates, Some(Kind::Templates)).records;
    let node = usize::try_from(answer.place).expect("a record");
    (grammar, templates, node)
}
