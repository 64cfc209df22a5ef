//! What is legal in a description but most likely not meant.
//!
//! The machine takes all of it, and so does the assembler. Each rule is a file of its own; none of them
//! looks at the value, so that a description is judged for every value that it may have.

mod admits;
mod barren;
mod behind;
mod flow;
mod grammar;
mod inside;
mod markup;
mod silent;
mod through;
mod unused;

use crate::language::description::Description;
use crate::mistake::Mistake;

/// What is legal but most likely not meant, in the order of the description.
///
/// The description is one that is assembled without a mistake. Of one that isn't less may be said, since
/// a name that stands for nothing is passed over.
pub fn lint(tree: &Description) -> Vec<Mistake> {
    let mut found = markup::markup(tree);
    found.extend(barren::barren(tree));
    found.extend(unused::unused(tree));
    found.extend(silent::silent(tree));
    found.sort_by_key(|mistake| (mistake.at.line, mistake.at.column));
    found
}

#[cfg(test)]
mod tests {
    use super::lint;
    use crate::language::parser::parse;
    use crate::mistake::Mistake;

    /// What is said of a description, with its places.
    fn said(description: &str) -> Vec<String> {
        lint(&parse(description).expect("a description"))
            .iter()
            .map(ToString::to_string)
            .collect()
    }

    /// What is said of a description, with the word that stands at its place.
    fn said_of(description: &str) -> Vec<String> {
        let at_word = |mistake: &Mistake| {
            let line = description.lines().nth(mistake.at.line - 1);
            let rest = line.and_then(|line| line.get(mistake.at.column - 1..));
            let word = rest.and_then(|rest| rest.split_whitespace().next());
            format!("{}: {}", word.unwrap_or(""), mistake.message)
        };
        let tree = parse(description).expect("a description");
        lint(&tree).iter().map(at_word).collect()
    }

    const NONE: [&str; 0] = [];

    const PODCAST: &str = include_str!("../../../../examples/podcast/feed.txt");
    const HARBOUR: &str = include_str!("../../../../examples/harbour/feed.txt");
    const MEDIA: &str = include_str!("../../../../examples/media/feed.txt");
    const STARTER: &str = include_str!("../starter/feed.txt");

    #[test]
    fn the_examples_are_meant() {
        assert_eq!(said(PODCAST), NONE);
        assert_eq!(said(HARBOUR), NONE);
        assert_eq!(said(MEDIA), NONE);
        assert_eq!(said(STARTER), NONE);
    }

    #[test]
    fn a_slip_with_its_markup_in_another_production() {
        let slip = PODCAST.replacen("time \" \" xml_title", "time \" \" title", 1);
        assert_eq!(
            said_of(&slip),
            [
                "title: class `title` admits `&` and `<` here, where production `some_chapters` has it \
                 between `<itunes:summary>..` and `</itunes:summary>`, where they would be read as \
                 markup: ask for its escaped form `xml_title`"
            ]
        );
    }

    #[test]
    fn a_case_that_is_taken_out_of_use() {
        let slip = MEDIA
            .replacen("video as video then expand film (video)", "video as video then build sound (literal \"a\" literal \"1\" literal \"a/b\" literal \"0:00\")", 1);
        assert_eq!(
            said_of(&slip),
            [
                "film: production `film` is not used: only template `film` builds it, which is not used itself",
                "subtitles: production `subtitles` is not used: only template `film` builds it, \
                 which is not used itself",
                "no_subtitles: production `no_subtitles` is not used: only template `film` builds it, \
                 which is not used itself",
                "film: template `film` is not used: no template expands it",
            ]
        );
    }

    #[test]
    fn the_example_with_slips() {
        let slips = PODCAST
            .replacen("  <title>\" xml_title", "  <title>\" title", 1)
            .replacen("title=\\\"\" xml_title", "title=\\\"\" title", 1)
            .replacen("{ '!' '#'-'%'", "{ '!' '#'-'&'", 1)
            .replacen(
                "else build no_chapters",
                "else expand chapters (episode.chapters)",
                1,
            );
        let address = |before: &str, after: &str| {
            format!(
                "address: class `address` admits `&` here, between `{before}` and `{after}`, \
                 where it would be read as markup: \
                 ask for an escaped form of it (`class NAME = escaped address`)"
            )
        };
        let escaped = "ask for its escaped form `xml_title`";
        assert_eq!(
            said_of(&slips),
            [
                format!(
                    "title: class `title` admits `&` and `<` here, between `<title>` and \
                     `</title>`, where they would be read as markup: {escaped}"
                ),
                address("<link>", "</link>"),
                address("<guid isPermaLink=\"false\">", "</guid>"),
                address("<enclosure url=\"", "\""),
                "no_chapters: production `no_chapters` is not used: no template builds it"
                    .to_string(),
                format!(
                    "title: class `title` admits `&`, `<` and `\"` here, between \
                     `<psc:chapter start=\"..\" title=\"` and `\"`, where `&` and `<` would be read as \
                     markup and `\"` would end the value: {escaped}"
                ),
            ]
        );
    }

    #[test]
    fn the_order_is_that_of_the_description() {
        let text =
            "template main (t: t) of n = build p (place t sequence (for i in t do build e))\n\
                    production p of n = \"<b>\" c \"</b>\" m*\n\
                    production e of m =\n\
                    production f of m = \"f\"\n\
                    class c 1 to 2 { '&' U+0000 }\n\
                    type t = text c value \"a\"";
        assert_eq!(
            said(text),
            [
                "line 1, column 56: the body of this `for` writes nothing, whatever its items are",
                "line 2, column 27: class `c` admits `&` here, between `<b>` and `</b>`, where it would \
                 be read as markup: ask for an escaped form of it (`class NAME = escaped c`)",
                "line 4, column 12: production `f` is not used: no template builds it",
                "line 5, column 22: the range U+0000 of class `c` admits no character: it has none that \
                 XML 1.0 admits",
            ]
        );
    }

    #[test]
    fn names_that_stand_for_nothing_are_passed_over() {
        let text =
            "class x = escaped y class z = escaped x production p of n = \"<b>\" x c \"</b>\" o*
            type t = text d type u = record { f: v } type w = list v
            template main (t: s) of q = build o (place t.a sequence (for i in u do expand r ()))
            template other () of n = build p () value yes";
        assert_eq!(said(text).len(), 6, "{:#?}", said(text));
        assert_eq!(said(""), NONE);
    }
}
