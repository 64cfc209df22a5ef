//! Escaped texts.

/// A text as an escaped class has it: each of & < > " ' is a predefined entity of XML 1.0.
#[must_use]
pub fn escaped(plain: &[u8]) -> Vec<u8> {
    let mut text = Vec::new();
    for byte in plain {
        match byte {
            b'&' => text.extend(b"&amp;"),
            b'<' => text.extend(b"&lt;"),
            b'>' => text.extend(b"&gt;"),
            b'"' => text.extend(b"&quot;"),
            b'\'' => text.extend(b"&apos;"),
            _ => text.push(*byte),
        }
    }
    text
}

#[cfg(test)]
mod tests {
    #[test]
    fn each_of_the_five_is_escaped() {
        let plain = "<a href=\"?p&q='ω'\">";
        let text = "&lt;a href=&quot;?p&amp;q=&apos;ω&apos;&quot;&gt;";
        assert_eq!(super::escaped(plain.as_bytes()), text.as_bytes());
    }
}
