//! What markup the text of a production is in the middle of, as far as its keywords tell.
//!
//! What stands between the keywords is taken to leave the markup as it was: a class in a tag's content
//! leaves the next one in that content. That is a guess, and good enough for a warning. Where more is
//! known of a nonterminal, `through.rs` says so.

/// So much of a tag is kept to show it.
const KEPT: usize = 200;

/// What the text is in the middle of.
#[derive(Clone, Copy, Debug, PartialEq, Eq, Hash)]
pub enum Inside {
    /// No keyword has shown markup yet.
    Unknown,
    /// Behind a `<` of which isn't known yet whether it opens a tag.
    Opened,
    /// A tag, but none of its values.
    Tag,
    /// The value of an attribute, with the quote that ends it.
    Value(u8),
    /// The content of an element.
    Content,
    /// A comment, an instruction or a section of plain characters, with what ends it. Neither `&` nor `<`
    /// is markup there.
    Raw(&'static [u8]),
}

/// What a reader goes on from: what the text is in the middle of, and where it goes on behind that.
pub type State = (Inside, Inside);

/// The states that a reader may be in: see [`Reader::state`].
pub const STATES: [State; 15] = {
    use Inside::{Content, Opened, Raw, Tag, Unknown, Value};
    [
        (Unknown, Unknown),
        (Opened, Unknown),
        (Opened, Content),
        (Opened, Tag),
        (Tag, Unknown),
        (Tag, Content),
        (Tag, Tag),
        (Value(b'"'), Unknown),
        (Value(b'"'), Tag),
        (Value(b'\''), Unknown),
        (Value(b'\''), Tag),
        (Content, Unknown),
        (Raw(COMMENT), Unknown),
        (Raw(SECTION), Unknown),
        (Raw(INSTRUCTION), Unknown),
    ]
};

/// What ends a comment, a section of plain characters and an instruction.
const COMMENT: &[u8] = b"-->";
const SECTION: &[u8] = b"]]>";
const INSTRUCTION: &[u8] = b"?>";

/// Reads the elements of a production from left to right.
#[derive(Clone)]
pub struct Reader {
    inside: Inside,
    /// Where the text goes on when a value ends, or when a `<` opened no tag.
    back: Inside,
    /// The bytes since the last tag's `<`, with two dots for what is no keyword.
    shown: Vec<u8>,
    /// The two bytes before.
    last: [u8; 2],
    /// The number of the production that is read.
    production: usize,
    /// The number of the one in which what is shown begins.
    begun: usize,
}

impl Reader {
    /// At the beginning of a text, of which nothing is known yet.
    pub fn new() -> Self {
        Self {
            inside: Inside::Unknown,
            back: Inside::Unknown,
            shown: Vec::new(),
            last: [0; 2],
            production: 0,
            begun: 0,
        }
    }

    /// At a place in the middle of a text, of which no more is known than a state. What it shows stands
    /// for a tag of which the name, if it comes before that place, is known.
    pub fn within(state: State) -> Self {
        let mut reader = Self::new();
        (reader.inside, reader.back) = state;
        reader.shown = match reader.inside {
            Inside::Opened => b"<".to_vec(),
            _ => b"<a".to_vec(),
        };
        reader.begun = usize::MAX;
        reader
    }

    /// At the beginning of the production with a number, the text of which comes here. What is before it
    /// is of no use to show if it is no markup.
    pub fn enter(&self, production: usize) -> Self {
        let mut reader = self.clone();
        reader.production = production;
        reader.last = [0; 2];
        if reader.inside == Inside::Unknown {
            reader.shown.clear();
        }
        reader
    }

    /// Readers with the same state read the same from here on, but for what they show.
    pub fn state(&self) -> State {
        let back = match self.inside {
            Inside::Opened | Inside::Tag | Inside::Value(_) => self.back,
            Inside::Unknown | Inside::Content | Inside::Raw(_) => Inside::Unknown,
        };
        (self.inside, back)
    }

    /// What an element that comes here is in the middle of. A class behind a bare `<` is the tag's name.
    pub fn inside(&self) -> Inside {
        match self.inside {
            Inside::Opened => Inside::Tag,
            inside => inside,
        }
    }

    /// Whether what is before may be no markup at all: a tag that no keyword has the name of may as well
    /// be an address in angle brackets. A value is one in any case.
    pub fn is_doubtful(&self) -> bool {
        matches!(self.inside, Inside::Tag | Inside::Content) && self.shown.starts_with(b"<..")
    }

    /// The last tag up to here.
    pub fn shown(&self) -> &[u8] {
        &self.shown
    }

    /// The number of the production in which the last tag begins.
    pub fn begun(&self) -> usize {
        self.begun
    }

    /// Goes on behind a keyword.
    pub fn keyword(&mut self, text: &[u8]) {
        for &byte in text {
            self.byte(byte);
            self.last = [self.last[1], byte];
        }
    }

    /// Goes on behind an element that is no keyword.
    pub fn other(&mut self) {
        self.inside = self.inside();
        self.keep(b"..");
        self.last = [0; 2];
    }

    /// Goes on behind a nonterminal that leaves the markup as another reader read it.
    pub fn leave(&mut self, exit: &Self) {
        self.other();
        (self.inside, self.back) = (exit.inside, exit.back);
        if exit.begun != usize::MAX {
            self.shown.clone_from(&exit.shown);
            self.begun = exit.begun;
        }
    }

    fn keep(&mut self, bytes: &[u8]) {
        if self.shown.is_empty() {
            self.begun = self.production;
        }
        if self.shown.len() < KEPT {
            self.shown.extend(bytes);
        }
    }

    fn byte(&mut self, byte: u8) {
        if byte == b'<' && !matches!(self.inside, Inside::Value(_) | Inside::Raw(_)) {
            // A tag that isn't closed yet was none, if another begins.
            if matches!(self.inside, Inside::Unknown | Inside::Content) {
                self.back = self.inside;
            }
            self.inside = Inside::Opened;
            self.shown.clear();
            return self.keep(b"<");
        }
        self.keep(&[byte]);
        if self.inside == Inside::Opened && !begins_tag(byte) {
            self.inside = self.back;
        }
        self.inside = self.next(byte);
    }

    /// What the text is in the middle of behind a byte that opens no tag.
    fn next(&mut self, byte: u8) -> Inside {
        match self.inside {
            Inside::Unknown if byte == b'>' => Inside::Content,
            Inside::Unknown if is_quote(byte) && self.last[1] == b'=' => self.value(byte),
            Inside::Opened if byte == b'?' => Inside::Raw(INSTRUCTION),
            Inside::Opened => Inside::Tag,
            Inside::Tag if byte == b'>' => Inside::Content,
            Inside::Tag if is_quote(byte) => self.value(byte),
            Inside::Tag if self.shown == b"<!--" => Inside::Raw(COMMENT),
            Inside::Tag if self.shown == b"<![CDATA[" => Inside::Raw(SECTION),
            Inside::Value(quote) if byte == quote => self.back,
            Inside::Raw(end) if [self.last[0], self.last[1], byte].ends_with(end) => {
                Inside::Content
            }
            same => same,
        }
    }

    /// A value begins, and what is around it goes on behind it.
    fn value(&mut self, quote: u8) -> Inside {
        self.back = self.inside;
        Inside::Value(quote)
    }
}

fn is_quote(byte: u8) -> bool {
    matches!(byte, b'"' | b'\'')
}

/// Whether a `<` before this byte opens a tag, an end tag, a comment or the like.
pub fn begins_tag(byte: u8) -> bool {
    matches!(byte, b'a'..=b'z' | b'A'..=b'Z' | b'_' | b':' | b'/' | b'!' | b'?' | 0x80..)
}

#[cfg(test)]
mod tests {
    use super::*;

    /// What a class is in the middle of behind these keywords, with a class between neighbours.
    fn after(keywords: &[&str]) -> Inside {
        let mut reader = Reader::new();
        for (number, keyword) in keywords.iter().enumerate() {
            if number > 0 {
                reader.other();
            }
            reader.keyword(keyword.as_bytes());
        }
        reader.inside()
    }

    #[test]
    fn content() {
        assert_eq!(after(&["<title>"]), Inside::Content);
        assert_eq!(after(&["<p class=\"x > y\">", ", "]), Inside::Content);
        assert_eq!(after(&["<a href=\"", "\">"]), Inside::Content);
        assert_eq!(after(&["<br/>"]), Inside::Content);
        assert_eq!(after(&["\">"]), Inside::Content);
        assert_eq!(after(&["<p>1 < 2 and it's=\""]), Inside::Content);
    }

    #[test]
    fn tags_and_values() {
        assert_eq!(after(&["<"]), Inside::Tag);
        assert_eq!(after(&["<", " b "]), Inside::Tag);
        assert_eq!(after(&["<a "]), Inside::Tag);
        assert_eq!(after(&["<a b=\"c\" "]), Inside::Tag);
        assert_eq!(after(&["<a b=\"c\" d='\" "]), Inside::Value(b'\''));
        assert_eq!(after(&["<a b=\"", " and "]), Inside::Value(b'"'));
        assert_eq!(after(&["<a b=\"<"]), Inside::Value(b'"'));
        assert_eq!(after(&[" b=\""]), Inside::Value(b'"'));
        assert_eq!(after(&[" b=\"", "\" c='"]), Inside::Value(b'\''));
    }

    #[test]
    fn no_markup() {
        assert_eq!(after(&["", "say \"", "\" and = "]), Inside::Unknown);
        assert_eq!(after(&[" b=\"", "\" "]), Inside::Unknown);
        assert_eq!(after(&["a < "]), Inside::Unknown);
        assert_eq!(after(&["<- "]), Inside::Unknown);
    }

    #[test]
    fn where_nothing_is_markup() {
        assert_eq!(after(&["<!-- a > "]), Inside::Raw(b"-->"));
        assert_eq!(after(&["<p><![CDATA[", "]> "]), Inside::Raw(b"]]>"));
        assert_eq!(after(&["<?xml version=\""]), Inside::Raw(b"?>"));
        for ended in ["<!-- a -->", "<![CDATA[ a ]]>", "<?xml a?>", "<!DOCTYPE a>"] {
            assert_eq!(after(&[ended]), Inside::Content, "{ended}");
        }
        assert_eq!(after(&["<!--", "-->"]), Inside::Content);
        assert_eq!(after(&["<!--", "-", "->"]), Inside::Raw(b"-->"));
    }

    #[test]
    fn the_states_are_all_there_are() {
        let texts = [
            "<",
            "a",
            "/",
            " ",
            "=",
            "\"",
            "'",
            ">",
            "<!--",
            "-->",
            "<![CDATA[",
            "]]>",
            "?",
            "?>",
        ];
        for state in STATES {
            for text in texts {
                let mut reader = Reader::within(state);
                for _ in 0..3 {
                    reader.keyword(text.as_bytes());
                    assert!(STATES.contains(&reader.state()), "{state:?} {text}");
                    reader.other();
                    assert!(STATES.contains(&reader.state()), "{state:?} {text}");
                }
            }
        }
    }

    #[test]
    fn tags_without_a_name_are_doubtful() {
        let doubtful = |keywords: [&str; 2]| {
            let mut reader = Reader::new();
            reader.keyword(keywords[0].as_bytes());
            reader.other();
            reader.keyword(keywords[1].as_bytes());
            reader.is_doubtful()
        };
        assert!(doubtful(["<", ""]));
        assert!(doubtful(["<", ">"]));
        assert!(!doubtful(["<", " a=\""]));
        assert!(!doubtful(["<", "><p>"]));
        assert!(!doubtful(["<a ", ">"]));
    }

    #[test]
    fn what_is_shown_is_carried_on() {
        let mut reader = Reader::new();
        reader.keyword(b"a > b <p>");
        let mut inner = reader.enter(3);
        inner.keyword(b"c");
        assert_eq!((inner.shown(), inner.begun()), (&b"<p>c"[..], 0));
        inner.keyword(b"<b>");
        assert_eq!((inner.shown(), inner.begun()), (&b"<b>"[..], 3));
        let mut plain = Reader::new();
        plain.keyword(b"text");
        assert_eq!(plain.enter(3).shown(), b"");
        plain.leave(&inner);
        assert_eq!((plain.shown(), plain.begun()), (&b"<b>"[..], 3));
        assert_eq!(plain.inside(), Inside::Content);
    }

    #[test]
    fn a_tag_is_shown_from_its_beginning() {
        let mut reader = Reader::new();
        reader.keyword(b"<p>\n  <a href=\"");
        reader.other();
        reader.keyword(b"\">");
        assert_eq!(reader.shown(), b"<a href=\"..\">");
        reader.keyword(&[b'x'; 1000]);
        assert_eq!(reader.shown().len(), KEPT);
    }
}
