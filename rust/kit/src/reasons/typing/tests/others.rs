//! Paths, fors and sequences, and the root.

use super::*;

#[test]
fn a_path_that_is_not_there() {
    let missing = |path: &str| {
        let (rule, said, named) = failing("place episode.sound.address", &format!("place {path}"));
        assert_eq!(rule, TYPING);
        assert_eq!((said.len(), named.len()), (1, 1));
        [said[0].clone(), named[0].clone()]
    };
    assert_eq!(
        missing("3"),
        [
            "variable 3 isn't there: 2 variables are known here: 0, 1",
            "variable 3 isn't there: 2 variables are known here: `episode`, `note`"
        ]
    );
    assert_eq!(
        missing("episode.1.5"),
        [
            "type 3 has no field 5: it has 0, 1",
            "type `sound` has no field 5: it has `address`, `length`"
        ]
    );
    assert_eq!(
        missing("note.0"),
        [
            "the path goes on behind type 0: a text has no fields",
            "the path goes on behind type `title`: a text has no fields"
        ]
    );
}

#[test]
fn a_path_that_is_not_there_at_other_nodes() {
    let (_, _, named) = failing("if episode.loud", "if episode.loud.0");
    assert_eq!(
        named,
        ["the path goes on behind type `flag`: a yes/no has no fields"]
    );
    let (_, _, named) = failing("in channel.episodes", "in channel.episodes.0");
    assert_eq!(
        named,
        ["the path goes on behind type `episodes`: a list has no fields"]
    );
    let (_, _, named) = failing("in channel.episodes", "in 1");
    assert_eq!(
        named,
        ["variable 1 isn't there: 1 variable is known here: `channel`"]
    );
    let (_, said, named) = failing("(episode channel.title)", "(episode 2)");
    assert_eq!(
        said,
        ["path 2: variable 2 isn't there: 2 variables are known here: 0, 1"]
    );
    assert!(named[0].ends_with("known here: `channel`, `episode`"));
    let no_parameter = "template none () of flag = expand flag (0) value";
    let (_, said, _) = failing("value", no_parameter);
    assert_eq!(said, ["variable 0 isn't there: no variable is known here"]);
}

#[test]
fn a_for_over_something_else_or_elsewhere() {
    let (rule, _, named) = failing("in channel.episodes", "in channel.title");
    assert_eq!(rule, REPETITION);
    assert_eq!(
        named,
        ["a for goes over a list, and the path `channel.title` finds a text of class `title`"]
    );
    let (rule, _, named) = failing(
        "else build advert",
        "else for x in episode.sound do build advert",
    );
    assert_eq!(rule, NONTERMINAL);
    assert_eq!(
        named[..2],
        [
            "nonterminal `item` is asked for here, as the second branch of the if",
            "a for stands only as an item of a sequence"
        ]
    );
    let (rule, _, named) = failing("do expand", "do for x in channel.episodes do expand");
    assert_eq!(rule, NONTERMINAL);
    assert_eq!(
        named[0],
        "nonterminal `item` is asked for here, as the body of the for"
    );
    let (rule, _, named) = failing("sequence (for episode in channel.episodes do expand item (episode channel.title) build advert)",
        "for episode in channel.episodes do build advert");
    assert_eq!(rule, REPETITION);
    assert_eq!(
        named,
        [
            "a repetition of nonterminal `item` is asked for here, by element 6 of production `feed` (child 5)",
            "only a sequence stands for a repetition, and a for stands here"
        ]
    );
}

#[test]
fn something_else_than_a_sequence_and_a_sequence_elsewhere() {
    let (rule, _, named) = failing("sequence (for episode in channel.episodes do expand item (episode channel.title) build advert)",
        "build advert");
    assert_eq!(rule, REPETITION);
    assert_eq!(
        named[1],
        "only a sequence stands for a repetition, and a build stands here"
    );
    let (rule, said, _) = failing("= build yes", "= sequence ()");
    assert_eq!(rule, NONTERMINAL);
    assert_eq!(
        said[..2],
        [
            "nonterminal 3 is asked for here, as the body of template 2",
            "a sequence stands only where a repetition is asked for"
        ]
    );
}

#[test]
fn a_root_that_is_none() {
    let (rule, said, named) = failing("(channel: channel) of", "(channel: channel, more: flag) of");
    assert_eq!(rule, TYPING);
    assert_eq!(
        said,
        ["template 0 has 2 parameters: the first template is the root, and its one parameter is the value"]
    );
    assert!(named[0].starts_with("template `main` has 2 parameters: "));
    let types_only = "class c 0 to 1 { } production p of n = type t = yesno value yes";
    let streams = crate::assemble(types_only).expect("streams");
    let (grammar, templates, node) = refused(&streams);
    assert_eq!(node, 0);
    let fault = fault(&grammar, &templates, &Names::default(), node).expect("a fault");
    assert_eq!(
        fault.said,
        ["there is no template: the first template is the root, and its one parameter is the value"]
    );
}

#[test]
fn paths_as_they_are_written() {
    let streams =
        crate::assemble(&SMALL.replacen("if episode.loud", "if 0.1", 1)).expect("streams");
    let (grammar, templates, node) = refused(&streams);
    let mut names = names(&templates);
    names.paths.insert(node + 1, "0.1".to_string());
    let fault = fault(&grammar, &templates, &names, node).expect("a fault");
    assert_eq!(
        fault.said,
        ["an if asks for yes or no, and the path `0.1` finds a record (type `sound`)"]
    );
}
