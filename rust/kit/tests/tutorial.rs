//! The tutorial (`docs/TUTORIAL.md`), the starter that it begins with, and the first screen of the README: every
//! step and command on them is done, and must show what they show.

mod tutorial_page;

use std::fs;
use std::path::{Path, PathBuf};
use std::process::Command;
use tutorial_page::folder::Folder;
use tutorial_page::shown::is_shown;
use tutorial_page::Step;

/// A file of the repository.
fn file(name: &str) -> PathBuf {
    Path::new(env!("CARGO_MANIFEST_DIR"))
        .join("../..")
        .join(name)
}

fn text_of(name: &str) -> String {
    fs::read_to_string(file(name)).unwrap_or_else(|error| panic!("{name}: {error}"))
}

fn tutorial() -> String {
    text_of("docs/TUTORIAL.md")
}

/// A folder in which the tutorial has been followed to its end.
fn followed(name: &str) -> Folder {
    let mut folder = Folder::fresh(name);
    let end = folder.follow(&tutorial());
    end.unwrap_or_else(|why| panic!("docs/TUTORIAL.md, {why}"));
    folder
}

/// A folder as `kit new` makes it.
fn new(name: &str) -> Folder {
    let mut folder = Folder::fresh(name);
    assert_eq!(folder.run("kit new voices").status, Some(0));
    folder.path.push("voices");
    folder
}

/// The titles that an XML parser that is not ours reads in a folder's feed. It also compares the feed
/// with the data, text by text.
fn titles(folder: &Folder) -> String {
    let output = Command::new("python3")
        .arg(file("rust/kit/tests/tutorial_feed.py"))
        .args(["feed.xml", "data.json"])
        .current_dir(&folder.path)
        .output()
        .expect("python3, whose parsers read the feed and its data, can be run");
    let why = String::from_utf8_lossy(&output.stderr);
    assert!(output.status.success(), "{why}");
    String::from_utf8(output.stdout).expect("UTF-8")
}

#[test]
fn the_tutorials_feed_says_what_was_typed() {
    let titles = titles(&followed("tutorial_feed"));
    assert_eq!(
        titles,
        "Harbour Voices\n\
         2. Salt & Rope: \"heave\", they say, isn't <b>pull</b>\n\
         1. Καλώς ήρθατε\n"
    );
}

/// Each line that the page shows of an output is compared: any other line in its place is noticed.
#[test]
fn every_line_that_is_shown_counts() {
    let folder = followed("tutorial_lines");
    let mut tried = 0;
    for (shown, said) in &folder.seen {
        let said: Vec<&str> = said.lines().collect();
        for (at, _) in shown.iter().enumerate().filter(|(_, it)| *it != "..") {
            let other = format!("{} ", shown[at]);
            let mut changed: Vec<&str> = shown.iter().map(String::as_str).collect();
            changed[at] = &other;
            assert!(!is_shown(&changed, &said), "{other}");
            tried += 1;
        }
    }
    assert!(tried > 80, "{tried}");
}

/// What is wrong on the page in another way is noticed, too.
#[test]
fn a_wrong_page_is_noticed() {
    let slips = [
        ("\n class address 1 to 300", "\n class address 1 to 301"),
        ("\n+    place episode.date", "\n+    place episode.data"),
        (" Undo the change.\n\nIf", " Undo it.\n\nIf"),
        (
            "type episode  = record { title: title, page",
            "type episode = record { title: title, page",
        ),
        ("\n```diff\n", "\n```rust\n"),
        ("\n$ echo $?\n1\n", "\n$ echo $?\n2\n"),
        ("\n$ cd voices\n", "\n"),
    ];
    for (right, wrong) in slips {
        let page = tutorial();
        assert!(page.contains(right), "{right}");
        let mut folder = Folder::fresh("tutorial_slip");
        let end = folder.follow(&page.replacen(right, wrong, 1));
        assert!(end.is_err(), "{wrong}");
    }
}

/// An episode for the table of what fits: all but its title, topics and note is the same.
fn episode(letter: &str, title: usize, note: usize) -> String {
    let [title, topic, note] = [title, 10, note].map(|count| letter.repeat(count));
    format!(
        r#"{{ "title": "{title}", "date": "Fri, 16 Oct 2026 06:00:00 +0300", "explicit": false,
        "sound": {{ "address": "https://example.org/sound/100.mp3", "length": "39004112" }},
        "topics": ["{topic}", "{topic}"], "note": "{note}", "page": "https://example.org/voices/100" }}"#
    )
}

/// Data with this many equal episodes, in `many.json`.
fn write_many(folder: &Folder, episode: &str, count: usize) {
    let episodes = vec![episode; count].join(",\n");
    let head = r#""title": "Harbour Voices", "page": "https://example.org/voices""#;
    let about = r#""about": "Stories from the sea, every Friday.""#;
    let data = format!("{{ {head}, {about}, \"episodes\": [{episodes}] }}");
    fs::write(folder.path.join("many.json"), data).expect("written");
}

/// So many episodes are taken, and one more is refused.
fn assert_fit(folder: &Folder, episode: &str, count: usize, options: &str) {
    for (count, status) in [(count, 0), (count + 1, 1)] {
        write_many(folder, episode, count);
        let line = format!("kit check feed.txt many.json {options}");
        let said = folder.run(&line);
        assert_eq!(said.status, Some(status), "{count}: {}", said.text);
    }
}

#[test]
fn so_many_episodes_fit() {
    let (folder, page) = (followed("tutorial_fit"), tutorial());
    let rows = page
        .lines()
        .skip_while(|line| !line.starts_with("| letter |"));
    let rows: Vec<_> = rows
        .skip(2)
        .take_while(|line| line.starts_with('|'))
        .collect();
    assert_eq!(rows.len(), 3);
    for row in rows {
        let cells: Vec<&str> = row.split('|').map(str::trim).collect();
        let number = |cell: usize| cells[cell].parse::<usize>().expect(row);
        let episode = episode(cells[1].trim_matches('`'), number(2), number(3));
        write_many(&folder, &episode, 1);
        let size = folder.run("kit size feed.txt many.json").text;
        let records = format!("`episodes`: 1 item in {} records; about ", number(4));
        assert!(size.contains(&records), "{row}\n{size}");
        // With one episode there, as many more as the row has but one.
        let more = format!("about {} more fit, then the output", number(5) - 1);
        assert!(size.contains(&more), "{row}\n{size}");
        assert_fit(&folder, &episode, number(5), "");
        assert_fit(&folder, &episode, number(6), "--output 1000000");
    }
}

#[test]
fn the_starter_works() {
    let folder = new("starter");
    for (line, shown) in [
        ("kit check feed.txt", "feed.txt: accepted\n"),
        ("kit lint feed.txt", "feed.txt: nothing to say\n"),
        ("kit render feed.txt data.json > feed.xml", ""),
    ] {
        let said = folder.run(line);
        assert_eq!((said.text.as_str(), said.status), (shown, Some(0)));
    }
    assert_eq!(
        titles(&folder),
        "Harbour Voices\n2. Salt & Rope\n1. Καλώς ήρθατε\n"
    );
}

/// The names and texts of all files in a folder.
fn files(folder: &Path) -> Vec<(String, Vec<u8>)> {
    let entries = fs::read_dir(folder).expect("a folder");
    let paths = entries.map(|entry| entry.expect("an entry").path());
    let mut files: Vec<_> = paths
        .map(|path| (path.display().to_string(), fs::read(&path).expect("a file")))
        .collect();
    files.sort();
    files
}

/// A file of one's own is never written over, and nothing is put beside it.
#[test]
fn a_starter_never_takes_the_place_of_a_file() {
    for there in ["feed.txt", "data.json"] {
        let mut folder = Folder::fresh("starter_there");
        fs::create_dir(folder.path.join("voices")).expect("a folder");
        fs::write(folder.path.join("voices").join(there), "mine").expect("written");
        let before = files(&folder.path.join("voices"));
        let said = folder.run("kit new voices");
        let why = format!("kit: voices/{there}: this is there already, and stays as it is\n");
        assert_eq!((said.text, said.status), (why, Some(2)));
        folder.path.push("voices");
        assert_eq!(files(&folder.path), before);
    }
}

/// A folder with other files is taken, and they stay.
#[test]
fn a_starter_has_room_beside_other_files() {
    let folder = Folder::fresh("starter_beside");
    fs::write(folder.path.join("logo.png"), "mine").expect("written");
    assert_eq!(folder.run("kit new .").status, Some(0));
    assert_eq!(files(&folder.path).len(), 3);
    assert_eq!(folder.read("logo.png"), "mine");
    assert_eq!(
        folder.read("feed.txt"),
        text_of("rust/kit/src/starter/feed.txt")
    );
    assert_eq!(
        folder.read("data.json"),
        text_of("rust/kit/src/starter/data.json")
    );
}

/// The README shows lines of the starter's description, and the command that renders it.
#[test]
fn the_readme_begins_with_lines_that_are_rendered() {
    let readme = text_of("README.md");
    let mut parts = readme.split("```\n").skip(1).step_by(2);
    let (lines, shown) = (
        parts.next().expect("lines"),
        parts.next().expect("a command"),
    );
    let starter = text_of("rust/kit/src/starter/feed.txt");
    for part in lines.split("\n\n").map(str::trim_end) {
        assert_eq!(starter.matches(&format!("\n{part}\n")).count(), 1, "{part}");
    }
    let (typed, shown) = shown.split_once('\n').expect("a command");
    let words = typed.strip_prefix("$ (cd rust && cargo run -q -p kit -- ");
    let words = words.and_then(|words| words.strip_suffix(')'));
    let mut folder = Folder::fresh("readme");
    folder.path = file("rust");
    let said = folder.run(&format!("kit {}", words.expect("the command")));
    let [shown, said] = [shown, &said.text].map(|text| text.lines().collect::<Vec<_>>());
    assert!(is_shown(&shown, &said), "{said:#?}");
}

/// The page has each kind of step, so that none of them is read as prose by mistake.
#[test]
fn the_page_has_every_kind_of_step() {
    let steps = tutorial_page::steps(&tutorial()).expect("steps");
    let count = |is: fn(&Step) -> bool| steps.iter().filter(|(_, step)| is(step)).count();
    assert!(count(|step| matches!(step, Step::Change { .. })) > 15);
    assert!(count(|step| matches!(step, Step::Commands(_))) > 10);
    assert_eq!(count(|step| matches!(step, Step::Undo)), 3);
    assert_eq!(count(|step| matches!(step, Step::Has { .. })), 4);
}
