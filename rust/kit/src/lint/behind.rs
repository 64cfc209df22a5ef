//! What comes behind an element, as far as the keywords there tell.

use super::inside::begins_tag;
use super::through::Through;
use crate::language::description::Element;

/// So many bytes behind an element are looked through, and at most as many elements.
const LOOKED: usize = 200;

/// What the first `<` or `>` of a keyword does.
#[derive(Clone, Copy, Debug, PartialEq, Eq, Hash)]
enum Mark {
    /// A tag begins with it.
    Begins,
    /// The keyword ends with it: then the tag's name, if it is a tag, is what comes next.
    Opens,
    /// A tag ends with it.
    Ends,
}

/// What the keywords behind an element show.
#[derive(Clone, Copy, Debug, Default, PartialEq, Eq, Hash)]
pub struct Behind {
    /// That there is one.
    pub keyword: bool,
    /// Whether the next of their tags begins there, or only ends there; nothing if they have none.
    mark: Option<Mark>,
}

impl Behind {
    /// What is behind each element of a production.
    pub fn all(elements: &[Element], through: &Through<'_>) -> Vec<Self> {
        let mut behind = Self::default();
        let mut found = Vec::with_capacity(elements.len());
        for element in elements.iter().rev() {
            found.push(behind);
            behind = through.behind(element).then(behind);
        }
        found.reverse();
        found
    }

    /// What a keyword shows.
    pub fn at(keyword: &[u8]) -> Self {
        Self {
            keyword: !keyword.is_empty(),
            mark: first_mark(keyword),
        }
    }

    /// What this shows together with what comes further behind.
    pub fn then(self, further: Self) -> Self {
        Self {
            keyword: self.keyword || further.keyword,
            mark: self.mark.or(further.mark),
        }
    }

    /// What is certain if either this comes or another.
    pub fn common(self, other: Self) -> Self {
        Self {
            keyword: self.keyword && other.keyword,
            mark: self.mark.filter(|_| self.mark == other.mark),
        }
    }

    /// Whether the next tag begins there.
    pub fn tag(self) -> bool {
        matches!(self.mark, Some(Mark::Begins | Mark::Opens))
    }

    /// The same without a tag of which no keyword has the name: it may be none, but an address in angle
    /// brackets.
    pub fn certain(self) -> Self {
        Self {
            mark: self.mark.filter(|&mark| mark != Mark::Opens),
            ..self
        }
    }

    /// The same where nothing comes further behind: then it is all one whether there is no tag, or none
    /// that begins.
    pub fn settled(self) -> Self {
        let mark = if self.tag() { Mark::Begins } else { Mark::Ends };
        Self {
            mark: Some(mark),
            ..self
        }
    }
}

/// What the first `<` or `>` of a keyword does, if it has one that belongs to a tag.
fn first_mark(keyword: &[u8]) -> Option<Mark> {
    (0..keyword.len()).find_map(|at| match (keyword[at], keyword.get(at + 1)) {
        (b'>', _) => Some(Mark::Ends),
        (b'<', None) => Some(Mark::Opens),
        (b'<', Some(&next)) => begins_tag(next).then_some(Mark::Begins),
        _ => None,
    })
}

/// The beginning of the text that follows an element, with two dots for what is no keyword; each byte
/// with the number of the production that it is from.
#[derive(Clone, Default)]
pub struct Following(Vec<(u8, usize)>);

impl Following {
    /// Adds elements of the production with a number.
    pub fn elements(&mut self, elements: &[Element], production: usize, through: &Through<'_>) {
        for element in elements.iter().take(LOOKED) {
            match element {
                Element::Keyword(text) => self.keyword(&text.bytes, production),
                Element::One(name) => self.one(&name.word, production, through),
                Element::Many(..) => self.keyword(b"..", production),
            }
        }
    }

    /// Adds a class or a nonterminal.
    pub fn one(&mut self, name: &str, production: usize, through: &Through<'_>) {
        match through.begins(name) {
            Some(begins) => self.further(begins),
            None => self.keyword(b"..", production),
        }
    }

    /// Adds a keyword.
    pub fn keyword(&mut self, bytes: &[u8], production: usize) {
        let room = LOOKED - self.0.len();
        let bytes = bytes.iter().take(room);
        self.0.extend(bytes.map(|&byte| (byte, production)));
    }

    /// Adds what follows all of that. The dots of one production and those of the next are as good as
    /// one pair, else a long way through productions would show nothing but dots.
    pub fn further(&mut self, further: &Self) {
        let is_dot = |it: &(u8, usize)| it.0 == b'.';
        let ends_so = self.0.len() > 1 && self.0.iter().rev().take(2).all(is_dot);
        let begins_so = further.0.len() > 1 && further.0.iter().take(2).all(is_dot);
        let skipped = if ends_so && begins_so { 2 } else { 0 };
        let room = LOOKED - self.0.len();
        self.0.extend(further.0.iter().skip(skipped).take(room));
    }

    /// The text up to a byte, and the number of the production that the byte is from. Without that byte
    /// it is all of the text, and the production that the text begins in.
    pub fn until(&self, end: u8) -> (Vec<u8>, Option<usize>) {
        let ended = self.0.iter().position(|&(byte, _)| byte == end);
        let length = ended.map_or(self.0.len(), |at| at + 1);
        let bytes = self.0[..length].iter().map(|&(byte, _)| byte).collect();
        let from = self.0.get(ended.unwrap_or(0));
        (bytes, from.map(|&(_, production)| production))
    }
}

#[cfg(test)]
mod tests {
    use super::*;

    #[test]
    fn what_keywords_show() {
        for (keyword, tag, certain) in [
            ("", false, false),
            ("a", false, false),
            ("a </p>", true, true),
            ("1 < 2 <p>", true, true),
            (" <", true, false),
            ("> <p>", false, false),
        ] {
            let behind = Behind::at(keyword.as_bytes());
            assert_eq!(behind.keyword, !keyword.is_empty(), "{keyword}");
            assert_eq!(behind.tag(), tag, "{keyword}");
            assert_eq!(behind.certain().tag(), certain, "{keyword}");
            assert_eq!(behind.settled().tag(), tag, "{keyword}");
        }
    }

    #[test]
    fn one_behind_another() {
        let [text, tag, end] = [&b"a"[..], b"<p>", b">"].map(Behind::at);
        assert_eq!(text.then(tag), tag);
        assert_eq!(end.then(tag), end);
        assert_eq!(Behind::default().then(tag), tag);
        assert_eq!(tag.common(tag), tag);
        assert_eq!(tag.common(end), text);
        assert_eq!(tag.common(Behind::default()), Behind::default());
        assert_eq!(text.settled(), end);
    }

    #[test]
    fn what_follows_is_bounded() {
        let mut following = Following::default();
        following.keyword(b"ab", 1);
        let mut further = Following::default();
        further.keyword(b"c>d", 2);
        following.further(&further);
        assert_eq!(following.until(b'>'), (b"abc>".to_vec(), Some(2)));
        assert_eq!(following.until(b'"'), (b"abc>d".to_vec(), Some(1)));
        following.keyword(&[b'x'; 2 * LOOKED], 3);
        following.further(&further);
        assert_eq!(following.until(b'"').0.len(), LOOKED);
        assert_eq!(Following::default().until(b'>'), (Vec::new(), None));
    }

    #[test]
    fn dots_of_neighbours_are_one_pair() {
        let dots = |text: &[u8]| {
            let mut following = Following::default();
            following.keyword(text, 0);
            following
        };
        for (first, second, both) in [
            (&b".."[..], &b"..<"[..], &b"..<"[..]),
            (b"a..", b"..", b"a.."),
            (b"a.", b"..", b"a..."),
            (b"..", b".<", b"...<"),
            (b"", b"..", b".."),
            (b"..", b"", b".."),
        ] {
            let mut following = dots(first);
            following.further(&dots(second));
            assert_eq!(following.until(b'>').0, both);
        }
    }
}
