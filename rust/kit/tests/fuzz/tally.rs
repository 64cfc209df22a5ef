//! What was met in all cases together.

use kit::commands::Done;
use std::collections::BTreeMap;

/// How often commands ended in each way.
#[derive(Default)]
pub struct Tally {
    /// The runs of each command, by their exit status.
    runs: BTreeMap<String, [u64; 3]>,
    /// The cases in which each refusal was met.
    refusals: BTreeMap<u64, u64>,
    /// The refusals that the case at hand has met.
    met: Vec<u64>,
    /// The most bytes that each command printed, and said beside that.
    longest: BTreeMap<String, (usize, usize)>,
}

/// The refusals that a run of some thousands of cases meets.
const EXPECTED: [u64; 12] = [1, 2, 3, 4, 5, 6, 7, 8, 9, 10, 11, 12];

/// The number of a refusal that a text tells of, the first if there are several.
pub fn refusal(text: &str) -> Option<u64> {
    refusals(text).next()
}

fn refusals(text: &str) -> impl Iterator<Item = u64> + '_ {
    let behind = text.split("(refusal ").skip(1);
    behind.filter_map(|rest| rest.split(')').next()?.parse().ok())
}

impl Tally {
    /// Counts a run of a command.
    pub fn count(&mut self, command: &str, done: &Done) {
        let row = self.runs.entry(command.to_string()).or_default();
        row[usize::from(done.status.min(2))] += 1;
        let longest = self.longest.entry(command.to_string()).or_default();
        longest.0 = longest.0.max(done.out.len());
        longest.1 = longest.1.max(done.err.len());
        self.met.extend(refusals(&done.err));
        if command != "render" {
            self.met
                .extend(refusals(&String::from_utf8_lossy(&done.out)));
        }
    }

    /// Ends a case: each refusal that it met counts once.
    pub fn end_case(&mut self) {
        self.met.sort_unstable();
        self.met.dedup();
        for number in self.met.drain(..) {
            *self.refusals.entry(number).or_default() += 1;
        }
    }

    /// What was met, for a person.
    pub fn shown(&self) -> String {
        let mut text =
            String::from("command       status 0  status 1  status 2  longest out, err\n");
        for (command, [done, refused, misused]) in &self.runs {
            let (out, err) = self.longest[command];
            text.push_str(&format!(
                "{command:<12}{done:>10}{refused:>10}{misused:>10}  {out}, {err}\n"
            ));
        }
        let row = self
            .refusals
            .iter()
            .map(|(number, cases)| format!("{number}: {cases}"));
        let row: Vec<String> = row.collect();
        text + &format!("cases that met each refusal: {}\n", row.join(", "))
    }

    /// What should have been met and was not, in a run of enough cases.
    pub fn missing(&self) -> Option<String> {
        let status = |at: usize| self.runs.values().map(|row| row[at]).sum::<u64>();
        let statuses = (0..3)
            .filter(|at| status(*at) == 0)
            .map(|at| format!("status {at}"));
        let unmet = EXPECTED.iter().filter(|it| !self.refusals.contains_key(it));
        let unmet: Vec<String> = statuses
            .chain(unmet.map(|it| format!("refusal {it}")))
            .collect();
        (!unmet.is_empty()).then(|| format!("never met: {}", unmet.join(", ")))
    }
}
