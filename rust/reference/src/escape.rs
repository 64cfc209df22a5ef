//! Escaping: the five predefined entities of XML 1.0 for the characters that mark up its texts, and the
//! unescape call, its inverse.

use crate::answer::Answer;

/// The characters that are escaped, each with its entity.
const ENTITIES: [(u8, &[u8]); 5] = [
    (b'&', b"&amp;"),
    (b'<', b"&lt;"),
    (b'>', b"&gt;"),
    (b'"', b"&quot;"),
    (b'\'', b"&apos;"),
];

/// A text with the five characters turned into their entities.
pub(crate) fn escaped(plain: &[u8]) -> Vec<u8> {
    let mut text = Vec::with_capacity(plain.len());
    for &byte in plain {
        match ENTITIES.iter().find(|(character, _)| *character == byte) {
            Some((_, entity)) => text.extend_from_slice(entity),
            None => text.push(byte),
        }
    }
    text
}

/// The well-formed UTF-8 that a text is the escaped form of, if there is one.
pub(crate) fn unescaped(text: &[u8]) -> Option<Vec<u8>> {
    let mut plain = Vec::with_capacity(text.len());
    let mut rest = text;
    while let [first, behind @ ..] = rest {
        if ENTITIES.iter().any(|(character, _)| character == first) {
            // None of the five stands in an escaped text but at the beginning of an entity.
            let (character, entity) = ENTITIES.iter().find(|(_, it)| rest.starts_with(it))?;
            plain.push(*character);
            rest = &rest[entity.len()..];
        } else {
            plain.push(*first);
            rest = behind;
        }
    }
    std::str::from_utf8(&plain).is_ok().then_some(plain)
}

/// Gives back the plain text that an escaped one was made of.
///
/// Tries 8 (the text is the escaped form of no well-formed UTF-8) and 12 (the plain text doesn't fit);
/// refused, it writes nothing. It knows no class.
pub fn unescape(text: &[u8], out: &mut [u8]) -> Answer {
    let number = |number| Answer {
        number,
        ..Answer::default()
    };
    let Some(plain) = unescaped(text) else {
        return number(8);
    };
    let Some(part) = out.get_mut(..plain.len()) else {
        return number(12);
    };
    part.copy_from_slice(&plain);
    Answer {
        bytes: plain.len(),
        ..Answer::default()
    }
}

#[cfg(test)]
mod tests {
    use super::*;

    /// The answer and the whole output, of which so many bytes are lent.
    fn called(text: &[u8], room: usize) -> (String, Vec<u8>) {
        let mut out = vec![b'.'; room];
        let answer = unescape(text, &mut out);
        (answer.to_string(), out)
    }

    #[test]
    fn the_five_entities_and_nothing_else() {
        let all = "Salt & Rope, <b>\"Αβ'\"</b>;";
        let text = "Salt &amp; Rope, &lt;b&gt;&quot;Αβ&apos;&quot;&lt;/b&gt;;";
        assert_eq!(escaped(all.as_bytes()), text.as_bytes());
        assert_eq!(unescaped(text.as_bytes()).as_deref(), Some(all.as_bytes()));
    }

    #[test]
    fn escaping_twice_is_taken_back_once() {
        assert_eq!(unescaped(b"&amp;amp;").as_deref(), Some(&b"&amp;"[..]));
        assert_eq!(unescaped(b"&amp;#38;").as_deref(), Some(&b"&#38;"[..]));
    }

    #[test]
    fn what_no_escaping_makes() {
        let bare = ["&", "a & b", "<", ">", "\"", "'", "&amp;<"];
        let references = [
            "&#38;", "&#x26;", "&nbsp;", "&AMP;", "&Amp;", "&;", "&a&amp;",
        ];
        let cut = ["&amp", "&am", "&a", "&lt", "&quo", "&apos", "&amp &amp;"];
        for text in [&bare[..], &references, &cut].concat() {
            assert_eq!(unescaped(text.as_bytes()), None, "{text}");
        }
        for bytes in [
            &[0xC0, 0x80][..],
            &[0xED, 0xA0, 0x80],
            b"&amp;\x80",
            b"\xCE&lt;",
        ] {
            assert_eq!(unescaped(bytes), None, "{bytes:02x?}");
        }
    }

    #[test]
    fn the_call_writes_the_plain_text_or_nothing() {
        assert_eq!(
            called(b"a&lt;b", 5),
            ("0 0 0 0 3".into(), b"a<b..".to_vec())
        );
        assert_eq!(called(b"a&lt;b", 3), ("0 0 0 0 3".into(), b"a<b".to_vec()));
        assert_eq!(called(b"a&lt;b", 2), ("12 0 0 0 0".into(), b"..".to_vec()));
        assert_eq!(called(b"a&lt;b&", 2), ("8 0 0 0 0".into(), b"..".to_vec()));
        assert_eq!(called(b"a&lt;b&", 9), ("8 0 0 0 0".into(), vec![b'.'; 9]));
        assert_eq!(called(b"", 0), ("0 0 0 0 0".into(), vec![]));
    }
}
