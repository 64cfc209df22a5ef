//! The unescape call with one fault. Without a fault it answers as the reference does (a test says
//! so), though it shares no code with it.

use crate::admission::is_admitted;
use crate::machine::Fields;

/// What is wrong with an unescape call.
#[derive(Clone, Copy, Debug, PartialEq, Eq)]
pub enum Unescaping {
    /// Nothing.
    Right,
    /// Takes an ampersand that begins no entity for itself.
    TakesBareAmpersands,
    /// Takes quotes and apostrophes for themselves.
    TakesBareQuotes,
    /// Takes `&#38;` for an ampersand.
    TakesNumeric,
    /// Takes names of entities in capitals, too.
    TakesCapitals,
    /// Takes an entity at the end of the text without its semicolon.
    TakesCutEntities,
    /// Looks at no UTF-8.
    TakesIllFormed,
    /// Refuses characters that XML 1.0 doesn't admit.
    TriesAdmission,
    /// Takes `&amp;amp;` for one ampersand.
    UnescapesTwice,
    /// Tries 12 before 8.
    RoomFirst,
    /// Asks for room for the escaped text.
    RoomForEscaped,
    /// Writes as much of the plain text as fits, and answers 12.
    WritesAtTwelve,
    /// Writes the plain text up to what is wrong, and answers 8.
    WritesAtEight,
    /// Counts the bytes at a 12.
    CountsAtTwelve,
    /// Gives 8 the place of the wrong byte.
    TellsPlaces,
    /// Makes the rest of the output zero.
    ClearsTheRest,
}

impl Unescaping {
    /// All that go wrong.
    pub const ALL: [Unescaping; 15] = [
        Unescaping::TakesBareAmpersands,
        Unescaping::TakesBareQuotes,
        Unescaping::TakesNumeric,
        Unescaping::TakesCapitals,
        Unescaping::TakesCutEntities,
        Unescaping::TakesIllFormed,
        Unescaping::TriesAdmission,
        Unescaping::UnescapesTwice,
        Unescaping::RoomFirst,
        Unescaping::RoomForEscaped,
        Unescaping::WritesAtTwelve,
        Unescaping::WritesAtEight,
        Unescaping::CountsAtTwelve,
        Unescaping::TellsPlaces,
        Unescaping::ClearsTheRest,
    ];

    pub(crate) fn call(self, text: &[u8], out: &mut [u8]) -> Fields {
        let (mut plain, mut wrong) = self.plain(text);
        if self == Unescaping::UnescapesTwice && wrong.is_none() {
            let (again, still_wrong) = self.plain(&plain);
            plain = if still_wrong.is_none() { again } else { plain };
        }
        if wrong.is_none() && self != Unescaping::TakesIllFormed {
            wrong = std::str::from_utf8(&plain).err().map(|e| e.valid_up_to());
        }
        if wrong.is_none() && self == Unescaping::TriesAdmission {
            wrong = String::from_utf8_lossy(&plain).find(|character| !is_admitted(character));
        }
        let needed = match self {
            Unescaping::RoomForEscaped => text.len(),
            _ => plain.len(),
        };
        let fits = needed <= out.len();
        match wrong {
            Some(at) if fits || self != Unescaping::RoomFirst => self.refuse(at, &plain, out),
            _ if fits => self.write(&plain, out),
            _ => self.refuse_room(&plain, out),
        }
    }

    /// The plain text up to what is wrong, and where that is.
    fn plain(self, text: &[u8]) -> (Vec<u8>, Option<usize>) {
        let mut plain = Vec::new();
        let mut at = 0;
        while let Some(&byte) = text.get(at) {
            match self.character(&text[at..]) {
                Some((character, length)) => {
                    plain.push(character);
                    at += length;
                }
                None if b"&<>\"'".contains(&byte) => return (plain, Some(at)),
                None => {
                    plain.push(byte);
                    at += 1;
                }
            }
        }
        (plain, None)
    }

    /// The character that an entity at the beginning of a text stands for, and the entity's length.
    pub(crate) fn character(self, text: &[u8]) -> Option<(u8, usize)> {
        let names: [(&[u8], u8); 5] = [
            (b"&amp;", b'&'),
            (b"&lt;", b'<'),
            (b"&gt;", b'>'),
            (b"&quot;", b'"'),
            (b"&apos;", b'\''),
        ];
        for (name, character) in names {
            let begins = match self {
                Unescaping::TakesCapitals => text
                    .get(..name.len())
                    .is_some_and(|start| start.eq_ignore_ascii_case(name)),
                _ => text.starts_with(name),
            };
            let cut = self == Unescaping::TakesCutEntities && *text == name[..name.len() - 1];
            if begins || cut {
                return Some((character, name.len()));
            }
        }
        match (self, text) {
            (Unescaping::TakesNumeric, [b'&', b'#', b'3', b'8', b';', ..]) => Some((b'&', 5)),
            (Unescaping::TakesBareAmpersands, [b'&', ..]) => Some((b'&', 1)),
            (Unescaping::TakesBareQuotes, [quote @ (b'"' | b'\''), ..]) => Some((*quote, 1)),
            _ => None,
        }
    }

    fn write(self, plain: &[u8], out: &mut [u8]) -> Fields {
        let (part, rest) = out.split_at_mut(plain.len());
        part.copy_from_slice(plain);
        if self == Unescaping::ClearsTheRest {
            rest.fill(0);
        }
        [0, 0, 0, 0, plain.len() as u64]
    }

    fn refuse(self, at: usize, plain: &[u8], out: &mut [u8]) -> Fields {
        if self == Unescaping::WritesAtEight {
            write_part(plain, out);
        }
        match self {
            Unescaping::TellsPlaces => [8, 0, at as u64, 0, 0],
            _ => [8, 0, 0, 0, 0],
        }
    }

    fn refuse_room(self, plain: &[u8], out: &mut [u8]) -> Fields {
        if self == Unescaping::WritesAtTwelve {
            write_part(plain, out);
        }
        match self {
            Unescaping::CountsAtTwelve => [12, 0, 0, 0, out.len() as u64],
            _ => [12, 0, 0, 0, 0],
        }
    }
}

/// As much of a text as fits.
fn write_part(text: &[u8], out: &mut [u8]) {
    let length = text.len().min(out.len());
    out[..length].copy_from_slice(&text[..length]);
}
