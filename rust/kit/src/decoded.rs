//! The text of a file's bytes. Marks that editors put before a text, and bytes that are none, are named.

use crate::mistake::{end_of, Mistake};

/// The text of a file that somebody wrote.
///
/// # Errors
/// It begins with a byte-order mark, or isn't UTF-8.
pub fn decoded(bytes: &[u8]) -> Result<&str, Mistake> {
    let mark = match bytes {
        [0xEF, 0xBB, 0xBF, ..] => "(U+FEFF): save it without one",
        [0xFF, 0xFE, ..] | [0xFE, 0xFF, ..] => "of UTF-16: save it as UTF-8, without one",
        _ => return text(bytes),
    };
    let message = format!("the file begins with a byte-order mark {mark}");
    Err(Mistake::new(end_of(""), message))
}

fn text(bytes: &[u8]) -> Result<&str, Mistake> {
    std::str::from_utf8(bytes).map_err(|error| {
        let (valid, rest) = bytes.split_at(error.valid_up_to());
        let wrong = &rest[..error.error_len().unwrap_or(rest.len())];
        let wrong: String = wrong.iter().map(|byte| format!("\\x{byte:02X}")).collect();
        let at = end_of(&String::from_utf8_lossy(valid));
        Mistake::new(at, format!("`{wrong}` is no UTF-8: save the file as UTF-8"))
    })
}
