//! What a page shows of an output, against the output.

/// Whether lines are those that a page shows; `..` on a line by itself stands for any lines, or none.
pub fn is_shown(shown: &[&str], said: &[&str]) -> bool {
    match shown.split_first() {
        None => said.is_empty(),
        Some((&"..", rest)) => (0..=said.len()).any(|from| is_shown(rest, &said[from..])),
        Some((line, rest)) => said
            .split_first()
            .is_some_and(|(first, others)| line == first && is_shown(rest, others)),
    }
}

#[test]
fn lines_are_compared_in_order_and_to_the_end() {
    assert!(is_shown(&["a", "b"], &["a", "b"]));
    assert!(!is_shown(&["a"], &["a", "b"]));
    assert!(!is_shown(&["a", "b"], &["a"]));
    assert!(!is_shown(&["b", "a"], &["a", "b"]));
    assert!(!is_shown(&["a "], &["a"]));
}

#[test]
fn dots_stand_for_any_lines() {
    assert!(is_shown(&["..", "b", ".."], &["a", "b", "c", "d"]));
    assert!(is_shown(&["..", "b"], &["b"]));
    assert!(is_shown(&["..", "b"], &["b", "a", "b"]));
    assert!(!is_shown(&["..", "b"], &["a", "b", "c"]));
    assert!(!is_shown(&["..", "c", "..", "b"], &["b", "c"]));
    assert!(!is_shown(&["a .."], &["a b"]));
}
