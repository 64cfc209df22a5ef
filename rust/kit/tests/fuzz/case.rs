//! A case: inputs of one kind, and every command that takes them.

use super::data::{data, Data};
use super::random::Random;
use super::run::{holds, Held, Runner};
use super::tally::refusal;
use super::words::{any, options, words};
use super::{descriptions, extremes, json, streams};
use kit::commands::Done;
use kit::language::parser::parse;
use std::ffi::OsString;
use std::fs;
use std::path::Path;

const STREAMS: [&str; 3] = ["grammar.blk", "template.blk", "value.blk"];

/// Another set, to be mixed with that of a case.
const OTHERS: [&[u8]; 4] = [
    include_bytes!("../../../../examples/podcast/grammar.blk"),
    include_bytes!("../../../../examples/podcast/template.blk"),
    include_bytes!("../../../../examples/podcast/value.blk"),
    include_bytes!("../../../../examples/podcast/map.json"),
];

pub struct Case<'r, 't> {
    pub random: Random,
    pub runner: &'r mut Runner<'t>,
}

impl Case<'_, '_> {
    /// Runs the case in the current folder, which is empty.
    ///
    /// # Errors
    /// What a command did that none should.
    pub fn run(mut self) -> Held<()> {
        match self.random.below(20) {
            0..=8 => self.description(),
            9..=13 => self.with_data(),
            14..=17 => self.of_streams(),
            18 => self.of_words(),
            _ => self.in_the_way(),
        }
    }

    fn kit(&mut self, row: &[&str], options: &[OsString]) -> Held<Done> {
        self.runner.run(&[words(row), options.to_vec()].concat())
    }

    /// A description of any kind, through all commands that read one.
    fn description(&mut self) -> Held<()> {
        let text = descriptions::any(&mut self.random);
        write("feed.txt", &text);
        let options = options(&mut self.random);
        let check = self.kit(&["check", "feed.txt"], &options)?;
        let render = self.kit(&["render", "feed.txt"], &options)?;
        let size = self.kit(&["size", "feed.txt"], &options)?;
        let lint = self.kit(&["lint", "feed.txt"], &[])?;
        let assemble = self.kit(&["assemble", "feed.txt", "set"], &[])?;
        if assemble.status != 0 {
            let same = [&check, &render, &size, &lint]
                .iter()
                .all(|it| **it == assemble);
            return holds(same, "commands differ about a description's own mistakes");
        }
        if !Path::new("set/value.blk").exists() {
            let statuses = [render.status, size.status];
            return holds(
                statuses == [2, 2],
                "without a value there is nothing to render",
            );
        }
        let alike = render.err == check.err && size.err == check.err;
        holds(alike, "check, render and size differ about a refusal")?;
        let told = format!("gives a text of {} bytes in ", render.out.len());
        let says = String::from_utf8_lossy(&check.out);
        holds(
            check.status != 0 || says.contains(&told),
            "check and render differ in bytes",
        )?;
        self.assembled(&check, &options)
    }

    /// The set that was made of a description that has a value.
    fn assembled(&mut self, check: &Done, options: &[OsString]) -> Held<()> {
        let explain = self.kit(&["explain", "set"], options)?;
        agree(check, &explain)?;
        for name in STREAMS {
            let dump = self.kit(&["dump", &format!("set/{name}")], &[])?;
            holds(
                dump.status == 0,
                "dump finds a stream odd that was just made",
            )?;
        }
        let repack = self.kit(&["repack", "set"], &[])?;
        let kept = String::from_utf8_lossy(&repack.out)
            .matches(": kept")
            .count();
        holds(
            kept == STREAMS.len(),
            "repack doesn't keep streams that were just made",
        )
    }

    /// A description and JSON, mostly of its type.
    fn with_data(&mut self) -> Held<()> {
        let random = &mut self.random;
        let text = match random.below(3) {
            0 => super::plan::Plan::new(random).written(random),
            _ => descriptions::right(random),
        };
        let slips = *random.pick(&[0, 0, 10, 50, 200]);
        let made = parse(&text)
            .ok()
            .and_then(|tree| data(random, &tree, slips));
        let right = made.as_ref().map(|made| made.as_json(random).into_bytes());
        let json = match (right.clone(), random.below(8)) {
            (None, _) | (_, 0) => json::any(random),
            (Some(right), 1..=3) => json::changed(random, &right),
            (Some(right), _) => right,
        };
        let made = made.filter(|_| right.as_ref() == Some(&json));
        write("feed.txt", text.as_bytes());
        write("data.json", &json);
        let options = options(random);
        let check = self.kit(&["check", "feed.txt", "data.json"], &options)?;
        let render = self.kit(&["render", "feed.txt", "data.json"], &options)?;
        self.written(&render, &options)?;
        let size = self.kit(&["size", "feed.txt", "data.json"], &options)?;
        let alike = render.err == check.err && size.err == check.err;
        holds(alike, "check, render and size differ about data")?;
        let value = self.kit(&["value", "feed.txt", "data.json", "out.blk"], &[])?;
        holds(
            check.status != 0 || value.status == 0,
            "check takes data that value refuses",
        )?;
        let assemble = self.kit(&["assemble", "feed.txt", "set"], &[])?;
        if value.status == 0 && assemble.status == 0 {
            self.taken(&check, &options)?;
        }
        match made {
            Some(made) => self.as_value(&text, &made, &check, &options),
            None => Ok(()),
        }
    }

    /// A text that goes to a file is the one that is printed.
    fn written(&mut self, render: &Done, options: &[OsString]) -> Held<()> {
        let words = ["render", "feed.txt", "data.json", "--to", "page.xml"];
        let written = self.kit(&words, options)?;
        holds(
            written.status == render.status && written.err == render.err,
            "render says something else where it writes a file",
        )?;
        let alike = render.status != 0 || read("page.xml") == render.out;
        holds(alike, "another text is written than is printed")
    }

    /// A value stream that was made of JSON: the library takes it, and explain agrees with check.
    fn taken(&mut self, check: &Done, options: &[OsString]) -> Held<()> {
        write("set/value.blk", &read("out.blk"));
        let [grammar, templates, value] = STREAMS.map(|name| read(&format!("set/{name}")));
        let mut scratch = vec![0; feed::SCRATCH];
        let answer = feed::evaluate(&grammar, &templates, &value, 0, &mut [], &mut scratch);
        let of_value =
            answer.refusal().and_then(feed::Refusal::stream) == Some(feed::Stream::Value);
        holds(!of_value, "value makes a stream that the library refuses")?;
        let explain = self.kit(&["explain", "set"], options)?;
        agree(check, &explain)
    }

    /// The same data as the value of the description: the library must say what was said of the JSON.
    fn as_value(&mut self, text: &str, made: &Data, json: &Done, options: &[OsString]) -> Held<()> {
        write(
            "valued.txt",
            format!("{text}\nvalue {}\n", made.as_value()).as_bytes(),
        );
        let own = self.kit(&["check", "valued.txt"], options)?;
        holds(
            own.status == json.status,
            "data is judged otherwise as JSON than as a value",
        )?;
        let alike = match (refusal(&json.err), refusal(&own.err)) {
            (one, other) if one == other => true,
            // The JSON is read first; where its form is another one, and where a value takes more
            // records than there are, no number is told.
            (Some(8) | None, Some(3..=8) | None) => true,
            _ => false,
        };
        holds(
            alike,
            "another refusal is told of JSON than of the same value",
        )
    }

    /// The streams of a description, changed, through all commands that read streams.
    fn of_streams(&mut self) -> Held<()> {
        let random = &mut self.random;
        let text = match random.below(8) {
            0 => extremes::extreme(random),
            1..=3 => descriptions::new(random),
            _ => {
                let right = descriptions::right(random);
                descriptions::with_value(random, right)
            }
        };
        write("feed.txt", text.as_bytes());
        let assemble = self.kit(&["assemble", "feed.txt", "set"], &[])?;
        if assemble.status != 0 {
            return Ok(());
        }
        self.change_streams();
        let options = options(&mut self.random);
        self.kit(&["explain", "set"], &options)?;
        for name in STREAMS {
            self.kit(&["dump", &format!("set/{name}")], &[])?;
        }
        let place = *self
            .random
            .pick(&["set", "set", "set/template.blk", "set/value.blk"]);
        let repack = self.kit(&["repack", place], &[])?;
        if repack.status == 0 {
            let again = self.kit(&["repack", place], &[])?;
            let kept = String::from_utf8_lossy(&again.out)
                .matches(": kept")
                .count();
            let due = if place == "set" { STREAMS.len() } else { 1 };
            holds(kept == due, "what is packed anew isn't kept")?;
            self.kit(&["explain", "set"], &options)?;
        }
        Ok(())
    }

    fn change_streams(&mut self) {
        let random = &mut self.random;
        for (name, other) in STREAMS.iter().zip(OTHERS) {
            let file = format!("set/{name}");
            let stream = fs::read(&file).unwrap_or_else(|_| other.to_vec());
            match random.below(20) {
                0 => drop(fs::remove_file(&file)),
                1..=8 => write(&file, &streams::changed(random, &stream, other)),
                9 => {
                    let other = *random.pick(&OTHERS);
                    write(&file, &streams::changed(random, &stream, other));
                }
                _ => {}
            }
        }
        let map = read("set/map.json");
        match random.below(20) {
            0 => drop(fs::remove_file("set/map.json")),
            1..=10 => write(
                "set/map.json",
                &streams::map_changed(random, &map, OTHERS[3]),
            ),
            _ => {}
        }
    }

    /// Words of all kinds, beside files that they may name.
    fn of_words(&mut self) -> Held<()> {
        write("feed.txt", descriptions::right(&mut self.random).as_bytes());
        write("data.json", &json::any(&mut self.random));
        fs::create_dir_all("set").expect("a folder");
        write("set/grammar.blk", OTHERS[0]);
        for _ in 0..self.random.between(1, 4) {
            let row = any(&mut self.random);
            self.runner.run(&row)?;
        }
        Ok(())
    }

    /// A new folder, and what can't be written since something is in its way.
    fn in_the_way(&mut self) -> Held<()> {
        let new = self.kit(&["new", "start"], &[])?;
        let (feed, json) = ("start/feed.txt", "start/data.json");
        let check = self.kit(&["check", feed, json], &[])?;
        holds(
            [new.status, check.status] == [0, 0],
            "the start isn't right",
        )?;
        let again = self.kit(&["new", "start"], &[])?;
        holds(again.status == 2, "a folder is begun twice")?;
        let name = *self
            .random
            .pick(&["grammar.blk", "template.blk", "map.json", "map.json/full"]);
        fs::create_dir_all(Path::new("set").join(name)).expect("a folder");
        let assemble = self.kit(&["assemble", feed, "set"], &[])?;
        holds(assemble.status == 2, "a folder is written over")?;
        for out in ["set", "none/out.blk", "start/feed.txt/out.blk", "set/"] {
            let value = self.kit(&["value", feed, json, out], &[])?;
            holds(value.status == 2, "what can't be written is written")?;
        }
        let into = self.kit(&["assemble", feed, feed], &[])?;
        let below = self.kit(&["new", "start/feed.txt/below"], &[])?;
        holds([into.status, below.status] == [2, 2], "a file is no folder")?;
        let same = self.kit(&["value", feed, json, json], &[])?;
        let over = self.kit(&["render", feed, json, "--to", json], &[])?;
        holds([same.status, over.status] == [2, 2], "data is written over")
    }
}

/// Check and explain say the same of the same set.
fn agree(check: &Done, explain: &Done) -> Held<()> {
    let said = format!(
        "check {:?}, explain {:?}",
        check.err,
        String::from_utf8_lossy(&explain.out)
    );
    let said = kit::words::cut(&said, 2000);
    holds(
        check.status == explain.status,
        &format!("check and explain differ: {said}"),
    )?;
    let found = refusal(&String::from_utf8_lossy(&explain.out));
    let same = refusal(&check.err) == found;
    holds(
        same,
        &format!("check and explain tell of different refusals: {said}"),
    )
}

fn write(file: &str, bytes: &[u8]) {
    fs::write(file, bytes).expect("a file of the case is written");
}

fn read(file: &str) -> Vec<u8> {
    fs::read(file).expect("a file of the case is read")
}
