//! `kit size`: how full each stream is, also where it is too full.

use super::desk::{changed, desk_with, Said};

/// What is said of so many equal entries, with options.
#[track_caller]
fn size(entries: usize, options: &[&str]) -> Said {
    let entry = r#"{"word": "ab", "loud": false}"#;
    let data = format!(
        "{{\"title\": \"ab\", \"entries\": [\n{}\n]}}",
        vec![entry; entries].join(",\n")
    );
    let words = [&["size", "feed.txt", "data.json"], options].concat();
    desk_with(changed("", ""))
        .with("data.json", data)
        .kit(&words)
}

#[test]
fn room_for_more() {
    size(10, &[]).done(
        "
grammar   24 of 8064 records, 1 of 128 blocks, 1 % full
templates 29 of 8064 records, 1 of 128 blocks, 1 % full
value     44 of 8064 records, 1 of 128 blocks, 1 % full
text      63 of 65536 bytes, 44 of 1000000 steps
`entries`: 10 items in 40 records; about 2005 more fit, then the value stream is full
",
    );
    let fuel = size(10, &["--fuel", "60"]);
    assert!(fuel
        .out
        .ends_with("about 4 more fit, then the fuel is full\n"));
    let output = size(10, &["--output=80"]);
    assert!(output
        .out
        .ends_with("about 2 more fit, then the output is full\n"));
    let none = size(0, &[]);
    assert!(none
        .out
        .ends_with("`entries`: no item, so there is none to go by\n"));
}

#[test]
fn too_much_for_the_output() {
    let said = size(10, &["--output", "30"]);
    assert_eq!(said.status, Some(1));
    assert!(
        said.out.ends_with(
            "text      63 of 30 bytes, 44 of 1000000 steps\n\
             `entries`: 10 items in 40 records; about 4 of them fit, then the output is full\n"
        ),
        "{}",
        said.out
    );
    assert!(said.err.contains("(refusal 12)"), "{}", said.err);
}

#[test]
fn too_much_for_the_stream() {
    size(3_000, &[]).is(
        1,
        "
grammar   24 of 8064 records, 1 of 128 blocks, 1 % full
templates 29 of 8064 records, 1 of 128 blocks, 1 % full
value     12004 of 8064 records, 191 of 128 blocks, 149 % full
`entries`: 3000 items in 12000 records; about 2015 of them fit, then the value stream is full
",
        "
data.json:2017:1: the value takes 12004 records, and a stream holds 8064: from here on they don't fit
    {\"word\": \"ab\", \"loud\": false},
    ^
",
    );
}
