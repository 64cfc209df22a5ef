//! Reads a stream's records as lines for a person, whatever they hold.
//!
//! Where the records break the layout, the line that does is marked with what the kit finds odd there.
//! These marks help to find a mistake; the verdict is the proved library's.

use crate::reasons::names::Names;
use crate::streams::heads::{head, Spot};
use crate::streams::record::{Kind, Record, BLOCK_RECORDS, RECORD};
use crate::streams::thing::Thing;
use crate::words::{counted, quoted};

/// How many levels are shown by indenting: streams of thousands exist.
const DEEPEST_SHOWN: usize = 40;

/// One line: a head, a text or a run of zero records.
#[derive(Debug, PartialEq, Eq)]
pub struct Line {
    /// The index of its first record.
    pub first: usize,
    /// The index of its last record.
    pub last: usize,
    /// How many things are around it.
    pub depth: usize,
    /// What it says.
    pub says: String,
    /// What is odd about it.
    pub odd: Vec<String>,
    /// Whether it is the line of a head.
    pub is_head: bool,
}

impl Line {
    /// The line with its index, indented by its depth.
    pub fn indented(&self) -> String {
        let index = if self.first == self.last {
            self.first.to_string()
        } else {
            format!("{}-{}", self.first, self.last)
        };
        let indent = "  ".repeat(self.depth.min(DEEPEST_SHOWN));
        let deeper = match self.depth > DEEPEST_SHOWN {
            true => format!("[depth {}] ", self.depth),
            false => String::new(),
        };
        format!("{index:>9}  {indent}{deeper}{}", self.says)
    }
}

/// The lines of a stream's records, in which everything has its number.
pub fn lines(kind: Kind, records: &[Record]) -> Vec<Line> {
    lines_with(kind, records, &Names::default())
}

/// The lines of a stream's records, with the names that are known.
pub fn lines_with(kind: Kind, records: &[Record], names: &Names) -> Vec<Line> {
    let mut reader = Reader {
        kind,
        records,
        names,
        at: 0,
        open: Vec::new(),
        lines: Vec::new(),
        top: [0; Thing::COUNT],
        in_variant: false,
        lost: false,
    };
    reader.read();
    reader.lines
}

/// A thing whose head was read, and what is still due below it.
struct Open {
    line: usize,
    start: usize,
    size: Option<u16>,
    due: Vec<(Thing, usize)>,
    begun: usize,
}

struct Reader<'a> {
    kind: Kind,
    records: &'a [Record],
    names: &'a Names,
    at: usize,
    open: Vec<Open>,
    lines: Vec<Line>,
    /// How many things of each kind stood in no other so far.
    top: [usize; Thing::COUNT],
    /// Whether the last type was a variant.
    in_variant: bool,
    /// Whether a break was met, after which nothing is expected until a new thing begins.
    lost: bool,
}

impl Reader<'_> {
    fn read(&mut self) {
        while self.at < self.records.len() {
            self.close();
            if self.open.is_empty() && self.zeros_to_the_end() {
                return self.tail();
            }
            self.record();
        }
        self.close();
        if let Some(open) = self.open.last() {
            let line = open.line;
            self.lines[line]
                .odd
                .push("the stream ends before all below it is there".to_string());
        }
    }

    /// Closes what has nothing due any more, and compares its size.
    fn close(&mut self) {
        while let Some(open) = self
            .open
            .pop_if(|open| open.due.iter().all(|(_, count)| *count == 0))
        {
            let found = self.at - open.start;
            if open.size.is_some_and(|size| usize::from(size) != found) {
                let message = format!("it takes {}", counted(found, "record", "records"));
                self.lines[open.line].odd.push(message);
            }
        }
    }

    fn zeros_to_the_end(&self) -> bool {
        self.records[self.at..]
            .iter()
            .all(|record| record.is_zero())
    }

    fn tail(&mut self) {
        let count = self.records.len() - self.at;
        let mut odd = Vec::new();
        if count >= BLOCK_RECORDS {
            odd.push("fewer than 63 zero records may follow the last thing".to_string());
        }
        let says = counted(count, "zero record", "zero records");
        self.push(self.at, self.records.len() - 1, 0, says, odd);
        self.at = self.records.len();
    }

    fn push(&mut self, first: usize, last: usize, depth: usize, says: String, odd: Vec<String>) {
        self.lines.push(Line {
            first,
            last,
            depth,
            says,
            odd,
            is_head: false,
        });
    }

    fn record(&mut self) {
        let record = self.records[self.at];
        let Some(thing) = Thing::of(self.kind, record) else {
            let odd = self.stray(&format!(
                "no record of the {} has kind {}",
                self.kind,
                record.kind()
            ));
            self.push(self.at, self.at, self.open.len(), hex(record), odd);
            self.at += 1;
            return;
        };
        let (number, mut odd) = self.begin(thing);
        if thing == Thing::Type {
            self.in_variant = record.a() == 4;
        }
        let mut head = head(thing, record, self.spot(number));
        odd.append(&mut head.odd);
        let (line, start) = (self.lines.len(), self.at);
        self.push(start, start, self.open.len(), head.says, odd);
        self.lines[line].is_head = true;
        self.at += 1;
        if let Some(bytes) = head.text {
            self.text(usize::from(bytes));
        }
        self.open.push(Open {
            line,
            start,
            size: head.size,
            due: head.below,
            begun: 0,
        });
    }

    /// The spot of the head that is read now.
    fn spot(&self, number: usize) -> Spot<'_> {
        Spot {
            number,
            index: self.at,
            holder: self.top[Thing::Type as usize].saturating_sub(1),
            in_variant: self.in_variant,
            names: self.names,
        }
    }

    /// Something that can't stand here: marked once, until a new thing begins.
    fn stray(&mut self, what: &str) -> Vec<String> {
        self.open.clear();
        if std::mem::replace(&mut self.lost, true) {
            return Vec::new();
        }
        vec![what.to_string()]
    }

    /// Begins a thing: its number among its neighbours, and what is odd about its standing here.
    fn begin(&mut self, thing: Thing) -> (usize, Vec<String>) {
        let Some(open) = self.open.last_mut() else {
            return self.begin_top(thing);
        };
        let due = open.due.iter_mut().find(|(_, count)| *count > 0);
        match due {
            Some((expected, count)) if *expected == thing => {
                *count -= 1;
                open.begun += 1;
                (open.begun - 1, Vec::new())
            }
            Some((expected, _)) => {
                let message = format!("{} is expected here", expected.called());
                let odd = self.stray(&message);
                (self.begin_top(thing).0, odd)
            }
            None => (0, Vec::new()),
        }
    }

    /// Begins a thing that stands in no other.
    fn begin_top(&mut self, thing: Thing) -> (usize, Vec<String>) {
        let number = self.top[thing as usize];
        let after = |thing: Thing| self.top[thing as usize] > 0;
        let broken = match thing {
            Thing::Class if after(Thing::Production) => Some("classes come before the productions"),
            Thing::Type if after(Thing::Template) => Some("types come before the templates"),
            Thing::Value if number > 0 => Some("there is exactly one value"),
            Thing::Class | Thing::Production | Thing::Type | Thing::Template | Thing::Value => None,
            _ => {
                return (
                    0,
                    self.stray(&format!("{} stands in no other thing here", thing.called())),
                )
            }
        };
        self.lost = false;
        self.top[thing as usize] += 1;
        (number, broken.map(str::to_string).into_iter().collect())
    }

    /// The units of a text.
    fn text(&mut self, length: usize) {
        let units = length.div_ceil(RECORD);
        let there = units.min(self.records.len() - self.at);
        let bytes: Vec<u8> = self.records[self.at..self.at + there]
            .iter()
            .flat_map(|record| record.0)
            .collect();
        let (text, padding) = bytes.split_at(length.min(bytes.len()));
        let mut odd = Vec::new();
        if there < units {
            odd.push("the stream ends inside this text".to_string());
        }
        if padding.iter().any(|&byte| byte != 0) {
            odd.push("its padding is not zero".to_string());
        }
        if there > 0 {
            self.push(
                self.at,
                self.at + there - 1,
                self.open.len() + 1,
                quoted(text),
                odd,
            );
        } else if let Some(line) = self.lines.last_mut() {
            line.odd.append(&mut odd);
        }
        self.at += there;
    }
}

/// A record's bytes, for one that has no meaning.
pub fn hex(record: Record) -> String {
    let bytes: Vec<String> = record.0.iter().map(|byte| format!("{byte:02x}")).collect();
    format!("bytes {}", bytes.join(" "))
}

#[cfg(test)]
mod tests;
