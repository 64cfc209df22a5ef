//! The script `render`: what it prints, its exit status, and when it has the program built. Each
//! test has a little repository of its own, with a stub for `rt` and one for the program.

use std::fs::{self, File};
use std::os::unix::fs::MetadataExt;
use std::path::{Path, PathBuf};
use std::process::{Command, Output};

/// What is said when the program is built from nothing.
const BUILT: &str = "\
render: the program is not built; rt builds it now, and passes over the crates that it has proved as they are
render: proving crate 1 of 4: rules
render: proving crate 2 of 4: stream
render: proving crate 3 of 4: records
render: proving crate 4 of 4: harbour
";

/// Keeps what it is asked for in `runs`, says what the real one says, and builds the program and runs it.
/// With a file `broken` at the top, `records` is not proved; with `idle`, no program is built.
const RT: &str = r#"#!/bin/sh
name=${PWD##*/}
top=../..
echo "$* in $name" >>$top/runs
if [ "$name" = records ] && [ -e $top/broken ]; then
    echo "src/lib.source:1:1: error: not proved"
    echo "logic=not-proved" >&2
    exit 1
fi
echo "logic=proved"
mkdir -p out/lib/src && echo "$name" >out/lib/src/lib.source
[ "$1" = run ] || exit 0
[ -e $top/idle ] || cp $top/program out/harbour
echo "1 1 0 0 0"
"#;

/// Answers what the file `answer` at the top of the repository has, if it is run beside the streams.
const PROGRAM: &str = r#"#!/bin/sh
cat grammar.blk template.blk value.blk >/dev/null && cat "$(dirname "$0")/../../../answer"
"#;

const ANSWER: &str = "0 0 0 7 4\ntext";

const CRATES: &str = "\
rules:
# what harbour does not need
spare: rules
stream: rules
records: rules stream # both below
exports staticlib: harbour
harbour: stream records rules io
";

/// None ends as a source of the language does: `rt` looks for those in the whole repository, and finds
/// what stands in no crate.
const SOURCES: [&str; 6] = [
    "crates/rules/src/lib.source",
    "crates/rules/specs/Lib.source",
    "crates/stream/src/lib.source",
    "crates/records/src/lib.source",
    "crates/harbour/src/main.source",
    "crates/harbour/proofs/a b/Proof.source",
];

/// What the program is not made of.
const OTHERS: [&str; 5] = [
    "crates/rules/must-fail/one.edit",
    "crates/harbour/stdout",
    "crates/harbour/data/value.blk",
    "crates/spare/src/lib.source",
    "decoy/set/link",
];

const STREAMS: [&str; 3] = ["set/grammar.blk", "set/template.blk", "set/value.blk"];

struct Repository(PathBuf);

impl Repository {
    /// A fresh one, with the three streams in the folder `set`.
    fn new(name: &str) -> Self {
        let folder = Path::new(env!("CARGO_TARGET_TMPDIR")).join("render");
        let made = Self(folder.join(name));
        let _ = fs::remove_dir_all(&made.0);
        for file in SOURCES.iter().chain(&OTHERS).chain(&STREAMS) {
            made.write(file, "");
        }
        let real = Path::new(env!("CARGO_MANIFEST_DIR")).join("../..");
        let read = |file: &str| fs::read(real.join(file)).expect("a file of the repository");
        made.write("rust/Cargo.toml", read("rust/Cargo.toml"));
        made.write("crates.txt", CRATES);
        made.write("answer", ANSWER);
        made.executable("bin/rt", RT);
        made.executable("program", PROGRAM);
        made.executable("render", read("render"));
        made
    }

    fn path(&self, file: &str) -> PathBuf {
        self.0.join(file)
    }

    fn write(&self, file: &str, content: impl AsRef<[u8]>) {
        let path = self.path(file);
        fs::create_dir_all(path.parent().expect("a folder")).expect("a folder");
        fs::write(path, content).expect("written");
    }

    /// What is to be run is written by a process of its own: while this one has it open, so may one
    /// that another test has just begun, and a file that is open to be written can't be run.
    fn executable(&self, file: &str, content: impl AsRef<[u8]>) {
        self.write(&format!("{file}.text"), content);
        self.sh(&format!("cp {file}.text {file} && chmod +x {file}"));
    }

    fn sh(&self, script: &str) {
        let mut command = Command::new("sh");
        command.args(["-c", script]).current_dir(&self.0);
        assert!(command.status().expect("sh runs").success());
    }

    fn age(&self, file: &str) {
        self.sh(&format!("touch -t 200001010000 '{file}'"));
    }

    /// The CDPATH has a folder `set` too, which is not the one that is meant.
    fn command(&self, words: &[&str]) -> Command {
        let path = std::env::var("PATH").expect("a PATH");
        let mut command = Command::new(self.path("render"));
        command.args(words).current_dir(&self.0);
        command.env("PATH", format!("{}:{path}", self.path("bin").display()));
        command.env("CDPATH", self.path("decoy"));
        command
    }

    /// Holds that nothing is printed but one or more lines of what is wrong.
    #[track_caller]
    fn fails(&self, words: &[&str], stderr: &str) {
        self.says(words, 2, "", stderr);
    }

    #[track_caller]
    fn says(&self, words: &[&str], status: i32, stdout: impl AsRef<[u8]>, stderr: &str) {
        assert_said(&mut self.command(words), status, stdout, stderr);
    }

    fn runs(&self) -> String {
        fs::read_to_string(self.path("runs")).unwrap_or_default()
    }

    /// Renders, and says whether the program was built first.
    fn is_built(&self) -> bool {
        let before = self.runs();
        let output = output(&mut self.command(&["set"]));
        assert_eq!(output.status.code(), Some(0));
        assert_eq!(output.stdout, ANSWER.as_bytes());
        assert_eq!(output.stderr.is_empty(), self.runs() == before);
        self.runs() != before
    }
}

impl Drop for Repository {
    /// A little repository stands in this one's target folder, and `rt ci` refuses a second `crates.txt`
    /// anywhere.
    fn drop(&mut self) {
        let _ = fs::remove_dir_all(&self.0);
    }
}

fn output(command: &mut Command) -> Output {
    command.output().expect("render runs")
}

#[track_caller]
fn assert_said(command: &mut Command, status: i32, stdout: impl AsRef<[u8]>, stderr: &str) {
    let output = output(command);
    assert_eq!(String::from_utf8_lossy(&output.stderr), stderr);
    assert_eq!(output.stdout, stdout.as_ref());
    assert_eq!(output.status.code(), Some(status));
}

#[test]
fn a_finished_text() {
    let little = Repository::new("finished");
    let bytes = b"0 0 0 7 12\n\0\xFF\xCE\r\n\n 7 %s\\";
    little.write("answer", bytes);
    little.says(&["set"], 0, bytes, BUILT);
    little.says(&["set/"], 0, bytes, "");
    let runs = "lib in rules\nlib in stream\nlib in records\nrun in harbour\n";
    assert_eq!(little.runs(), runs);
    little.sh("ln -s ../render set/link");
    let mut by_link = Command::new("./link");
    by_link.arg(".").current_dir(little.path("set"));
    assert_said(&mut by_link, 0, bytes, "");
}

#[test]
fn a_refusal() {
    let little = Repository::new("refused");
    assert!(little.is_built());
    little.write("answer", "8 3 127 0 0\n");
    let root = little.0.display();
    let note = format!("render: refused (number 8); `kit explain` tells where and why: (cd {root}/rust && cargo run -p kit -- explain {root}/set)\n");
    little.says(&["set"], 1, "8 3 127 0 0\n", &note);
}

#[test]
fn a_program_that_fails() {
    let little = Repository::new("fails");
    assert!(little.is_built());
    let odd = "render: the program has answered with something else than a line of five numbers\n";
    for answer in ["", "0 0 0 7\n", "no line"] {
        little.write("answer", answer);
        little.fails(&["set"], odd);
    }
    little.sh("rm crates/harbour/out/harbour");
    little.executable("program", "#!/bin/sh\necho 0 0 0 7 4\nexit 3\n");
    let said = format!("{BUILT}render: the program ended with status 3\n");
    little.says(&["set"], 2, "0 0 0 7 4\n", &said);
}

#[test]
fn bad_use() {
    let little = Repository::new("bad_use");
    for (words, said) in [
        (&[] as &[&str], "no folder given"),
        (&["a", "b", "c"], "3 words where one folder is expected"),
        (&["--x"], "unknown option `--x`"),
        (&["set", "-v"], "unknown option `-v`"),
    ] {
        let said = format!("render: {said} (usage: render DIR; `render --help` tells more)\n");
        little.fails(words, &said);
    }
}

#[test]
fn help_and_version() {
    let little = Repository::new("help");
    let version = concat!("render ", env!("CARGO_PKG_VERSION"), "\n");
    little.says(&["--version"], 0, version, "");
    let text = output(&mut little.command(&["--help"])).stdout;
    assert!(text.starts_with(b"usage: render DIR\n"));
    little.says(&["--help"], 0, text, "");
    little.write("rust/Cargo.toml", "[package]\nversion = \"1\"\n");
    little.fails(&["--version"], "render: rust/Cargo.toml has no version\n");
}

#[test]
fn what_is_missing() {
    let little = Repository::new("missing");
    little.fails(&["no"], "render: no such folder: no\n");
    little.fails(&[""], "render: no such folder: \n");
    little.fails(&["answer"], "render: answer is no folder\n");
    little.sh("rm set/template.blk");
    let first = "render: set/template.blk is missing\n";
    little.fails(&["set"], first);
    little.sh("rm set/value.blk && mkdir set/value.blk");
    let both = format!("{first}render: set/value.blk is a folder and no file\n");
    little.fails(&["set"], &both);
    assert_eq!(little.runs(), "");
}

/// Root may read every file: where root runs the tests, there is nothing to see.
#[test]
fn what_is_closed() {
    let little = Repository::new("closed");
    if fs::metadata(&little.0).expect("a folder").uid() == 0 {
        return;
    }
    little.sh("chmod 0 set/value.blk");
    little.fails(&["set"], "render: set/value.blk is not readable\n");
    little.sh("chmod 0 set");
    little.fails(&["set"], "render: set is a folder that can't be entered\n");
    little.sh("chmod 700 set");
}

#[test]
fn what_cannot_be_written() {
    let little = Repository::new("full");
    assert!(little.is_built());
    for answer in [ANSWER, "8 3 127 0 0\n"] {
        little.write("answer", answer);
        for word in ["set", "--help", "--version"] {
            let full = File::options().write(true).open("/dev/full").expect("open");
            let output = output(little.command(&[word]).stdout(full));
            assert_eq!(output.status.code(), Some(2));
            let last = b"\nrender: standard output could not be written\n";
            assert!(output.stderr.ends_with(last), "{output:?}");
        }
    }
}

#[test]
fn built_when_a_source_has_changed() {
    let little = Repository::new("changed");
    assert!(little.is_built());
    for file in SOURCES {
        little.write(file, ""); // touched, no more
        assert!(!little.is_built(), "{file}");
        little.write(file, "new");
        little.age(file);
        assert!(little.is_built(), "{file}");
    }
    for file in OTHERS {
        little.write(file, "new");
        assert!(!little.is_built(), "{file}");
    }
    little.sh(&format!("rm {}", SOURCES[1]));
    assert!(little.is_built());
    little.write("crates.txt", CRATES.replace("io", "io os"));
    assert!(little.is_built());
    assert!(!little.is_built());
}

/// By `rt` alone, which keeps no sums.
#[test]
fn built_by_something_else() {
    let little = Repository::new("else");
    little.executable("crates/harbour/out/harbour", PROGRAM);
    assert!(!little.is_built());
    little.age("crates/harbour/out/harbour"); // the sums are kept, and times count no more
    assert!(!little.is_built());
    little.executable(
        "crates/harbour/out/harbour",
        format!("{PROGRAM}# of other sources"),
    );
    assert!(little.is_built());
    little.sh("rm target/harbour.sources");
    little.age("crates/harbour/out/harbour");
    assert!(little.is_built());
}

#[test]
fn a_build_that_fails() {
    let little = Repository::new("broken");
    assert!(little.is_built());
    little.write("broken", "");
    little.write(SOURCES[0], "wrong");
    let mut said = String::from("render: the program or a source of it has changed; ");
    said += BUILT.split("; ").nth(1).expect("a line");
    said.truncate(said.find("render: proving crate 4").expect("a line"));
    said += "src/lib.source:1:1: error: not proved\nlogic=not-proved\n";
    said += "render: the program is not built: `rt lib` in crates/records failed\n";
    little.fails(&["set"], &said);
    let why = "the last build did not end well";
    said = said.replace("the program or a source of it has changed", why);
    little.fails(&["set"], &said);
    little.sh("rm broken");
    assert!(little.is_built());
    assert!(!little.is_built());
    little.sh("rm crates/harbour/out/harbour");
    little.write("idle", "");
    let program = little.path("crates/harbour/out/harbour");
    let said = format!("{BUILT}render: rt has built no {}\n", program.display());
    little.fails(&["set"], &said);
}

#[test]
fn without_rt() {
    let little = Repository::new("without_rt");
    let path = std::env::var("PATH").expect("a PATH");
    let has_none = |folder: &&str| !Path::new(folder).join("rt").exists();
    let path: Vec<&str> = path.split(':').filter(has_none).collect();
    let mut command = little.command(&["set"]);
    let said = "render: the program is not built, and rt, the Rattle toolchain that builds it, is not on the PATH\n";
    assert_said(command.env("PATH", path.join(":")), 2, "", said);
}
