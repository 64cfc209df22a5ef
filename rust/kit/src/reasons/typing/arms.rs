//! A match where a nonterminal is asked for: what its path finds, and whether its arms are as many as the
//! cases.

use super::nonterminal::standing;
use super::{Fault, Here};
use crate::reasons::nodes::children;
use crate::reasons::paper::MATCH;
use crate::reasons::types::Shape;
use crate::words::{bare, counted, listed};

impl Here<'_> {
    /// What is wrong with a match: its path first, then its arms.
    pub(super) fn matched(&self) -> Option<Fault> {
        let due = ("a match asks for a variant", MATCH);
        let is_variant = |shape| matches!(shape, Shape::Variant(_));
        if let Some(fault) = self.path_due(due, is_variant) {
            return Some(fault);
        }
        let path = self.paths().next()?;
        let number = self.along(path).ok()?;
        let Shape::Variant(cases) = self.tables.types.shape(number)? else {
            return None;
        };
        let arms = children(self.tables.records, self.site.node).count();
        (arms != cases).then(|| Fault {
            rule: MATCH,
            said: self.other_arms(path, number, cases, arms),
        })
    }

    /// A match with another number of arms than its variant has cases.
    fn other_arms(&self, path: usize, number: usize, cases: usize, arms: usize) -> Vec<String> {
        let (path, found) = (self.path_called(path), self.found(number));
        let due = counted(cases, "case", "cases");
        let here = standing(arms, "arm");
        let missing: Vec<String> = (arms..cases)
            .map(|case| bare(&self.names.case(number, case)))
            .collect();
        let which = match (missing.as_slice(), arms.saturating_sub(cases)) {
            ([], 1) => "the last arm is for no case".to_string(),
            ([], more) => format!("the last {more} arms are for no case"),
            ([only], _) => format!("no arm is for case {only}"),
            (several, _) => format!("no arm is for cases {}", listed(several)),
        };
        vec![
            format!("{path} finds {found} of {due}, and {here}"),
            which + ": the arms are for the cases in their order",
        ]
    }
}
