//! Characters next to each border of what XML 1.0 admits, for whoever tries a machine there.

/// On the inner side, and some within that other lists leave out.
pub const ADMITTED: [char; 15] = [
    '\t',
    '\n',
    '\r',
    ' ',
    '\u{7F}',
    '\u{80}',
    '\u{85}',
    '\u{9F}',
    '\u{D7FF}',
    '\u{E000}',
    '\u{FFFD}',
    '\u{10000}',
    '\u{1FFFE}',
    '\u{1FFFF}',
    '\u{10FFFF}',
];

/// On the outer side. (Surrogates are no characters.)
pub const OTHERS: [char; 8] = [
    '\0', '\u{8}', '\u{B}', '\u{C}', '\u{E}', '\u{1F}', '\u{FFFE}', '\u{FFFF}',
];
