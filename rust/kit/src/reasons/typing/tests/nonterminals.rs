//! What stands where a nonterminal is asked for.

use super::*;

#[test]
fn another_production() {
    let (rule, said, named) = failing(" build advert)", " build mark (literal \"a\"))");
    assert_eq!(rule, NONTERMINAL);
    assert_eq!(
        said,
        [
            "nonterminal 1 is asked for here, as an item of the sequence",
            "production 3 is one of nonterminal 2",
            "the productions of nonterminal 1 are 1, 2"
        ]
    );
    assert_eq!(
        named,
        [
            "nonterminal `item` is asked for here, as an item of the sequence",
            "production `mark` is one of nonterminal `chapter`",
            "the productions of nonterminal `item` are `episode`, `advert`"
        ]
    );
}

#[test]
fn another_template() {
    let (rule, _, named) = failing(
        "do expand item (episode channel.title)",
        "do expand main (channel)",
    );
    assert_eq!(rule, NONTERMINAL);
    assert_eq!(
        named,
        [
            "nonterminal `item` is asked for here, as the body of the for",
            "template `main` is one of nonterminal `rss`",
            "the template of nonterminal `item` is `item`"
        ]
    );
    let chapter = "template chapter () of chapter = expand flag () value";
    let (_, said, _) = failing("value", chapter);
    assert_eq!(said[2], "the template of nonterminal 2 is 3");
}

#[test]
fn another_production_in_other_positions() {
    let (_, _, named) = failing("else build advert", "else build yes");
    assert_eq!(
        named[0],
        "nonterminal `item` is asked for here, as the second branch of the if"
    );
    let (_, _, named) = failing("then build episode", "then build mark");
    assert_eq!(
        named[0],
        "nonterminal `item` is asked for here, as the first branch of the if"
    );
    let (_, _, named) = failing("= build yes", "= build advert");
    assert_eq!(
        named,
        [
            "nonterminal `flag` is asked for here, as the body of template `flag`",
            "production `advert` is one of nonterminal `item`",
            "the production of nonterminal `flag` is `yes`"
        ]
    );
}

#[test]
fn a_nonterminal_without_a_template() {
    let holder = "production holder of chapters = chapter production yes";
    let description = SMALL.replacen("production yes", holder, 1).replacen(
        "value",
        "template x () of chapters = build holder (expand flag ()) value",
        1,
    );
    let streams = crate::assemble(&description).expect("streams");
    let (grammar, templates, node) = refused(&streams);
    let said = fault(&grammar, &templates, &Names::default(), node).expect("a fault");
    assert_eq!(
        said.said,
        [
            "nonterminal 2 is asked for here, by element 1 of production 4",
            "template 2 is one of nonterminal 4",
            "no template is one of nonterminal 2"
        ]
    );
}

#[test]
fn a_class_node_where_a_nonterminal_is_asked_for() {
    for (to, what) in [
        ("literal \"y\"", "a literal"),
        ("place channel.title", "a place"),
    ] {
        let (rule, _, named) = failing("expand flag (channel.loud)", to);
        assert_eq!(rule, NONTERMINAL);
        assert_eq!(
            named,
            [
                "nonterminal `flag` is asked for here, by element 5 of production `feed` (child 4)"
                    .to_string(),
                format!("{what} stands only where a class is asked for"),
                "the production of nonterminal `flag` is `yes`".to_string()
            ]
        );
    }
}

#[test]
fn another_number_of_children() {
    let (rule, said, named) = failing("place note place episode.sound.address", "place note");
    assert_eq!(rule, COUNTS);
    assert_eq!(
        said,
        [
            "production 1 has 2 elements that are no keywords, and 1 node stands here",
            "they ask in order for class 0, class 1"
        ]
    );
    assert_eq!(
        named,
        [
            "production `episode` has 2 elements that are no keywords, and 1 node stands here",
            "they ask in order for class `title`, class `address`"
        ]
    );
}

#[test]
fn none_or_many_children() {
    let (_, _, named) = failing("build yes", "build yes (build yes build yes)");
    assert_eq!(
        named,
        ["production `yes` has no element but keywords, and 2 nodes stand here"]
    );
    let (_, _, named) = failing("place channel.title place", "place");
    assert_eq!(
        named,
        [
            "production `feed` has 5 elements that are no keywords, and 4 nodes stand here",
            "they ask in order for class `title`, class `address`, class `xml`, \
             nonterminal `flag`, a repetition of nonterminal `item`"
        ]
    );
    let one = "template chapter () of chapter = build mark value";
    let (_, said, _) = failing("value", one);
    assert_eq!(
        said,
        [
            "production 3 has 1 element that is no keyword, and none stands here",
            "it asks for class 0"
        ]
    );
}

#[test]
fn another_number_of_paths() {
    let (rule, said, named) = failing("(episode channel.title)", "(episode)");
    assert_eq!(rule, COUNTS);
    assert_eq!(
        said,
        ["template 1 takes 2 paths (0: type 4, 1: type 0), and 1 path stands here"]
    );
    assert_eq!(
        named,
        [
            "template `item` takes 2 paths (`episode`: type `episode`, `note`: type `title`), \
          and 1 path stands here"
        ]
    );
    let (_, _, named) = failing("expand flag (channel.loud)", "expand flag ()");
    assert_eq!(
        named,
        ["template `flag` takes 1 path (`loud`: type `flag`), and none stands here"]
    );
    let none =
        "template none () of flag = build yes template more () of flag = expand none (0) value";
    let (_, said, _) = failing("value", none);
    assert_eq!(said, ["template 3 takes no path, and 1 path stands here"]);
}

#[test]
fn an_argument_of_another_type() {
    let (rule, said, named) = failing("(episode channel.title)", "(episode channel.link)");
    assert_eq!(rule, NONTERMINAL);
    assert_eq!(
        said,
        ["path 2 finds type 1, and parameter 1 of template 1 is of type 0"]
    );
    assert_eq!(
        named,
        ["path 2 finds type `address`, and parameter `note` of template `item` is of type `title`"]
    );
    let (rule, _, named) = failing("note: title)", "note: note)");
    assert_eq!(rule, NONTERMINAL);
    assert_eq!(
        named,
        [
            "path 2 finds type `title`, and parameter `note` of template `item` is of type `note`",
            "both are texts of class `title`, but types are equal by their numbers only"
        ]
    );
}

#[test]
fn an_if_on_something_else() {
    let (rule, said, named) = failing("if episode.loud", "if episode.sound");
    assert_eq!(rule, NONTERMINAL);
    assert_eq!(
        said,
        ["an if asks for yes or no, and the path (variable 0, field 1) finds a record (type 3)"]
    );
    assert_eq!(
        named,
        ["an if asks for yes or no, and the path `episode.sound` finds a record (type `sound`)"]
    );
}
