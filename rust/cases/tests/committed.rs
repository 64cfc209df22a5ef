//! The files of the program `vectors` are those that this crate makes now, and each label says the
//! number that is answered.

use cases::{all, files, stdout, Call};
use std::fs;

#[test]
fn the_files_are_as_they_are_made() {
    for (path, bytes) in files() {
        let found = fs::read(&path).unwrap_or_else(|error| panic!("{}: {error}", path.display()));
        let path = path.display();
        assert!(found == bytes, "{path} is stale: cargo run -p cases");
    }
}

#[test]
fn each_label_starts_with_the_number_answered() {
    let mut tried = 0;
    for case in all() {
        if matches!(case.call, Call::Evaluate(..)) {
            let line = stdout(std::slice::from_ref(&case));
            let (label, answer) = line.split_once(" -> ").expect("an arrow");
            let number = |text: &str| text.split(' ').next().map(str::to_string);
            assert_eq!(number(label), number(answer), "{label}");
            tried += 1;
        }
    }
    assert!(tried > 0);
}
