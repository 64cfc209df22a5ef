//! Cases by their names: the arms of a match, and the cases of a value.

use super::paths::{Known, Scope};
use super::Assembler;
use crate::assembly::sheet::{Sheet, What};
use crate::language::description::{Arm, By, Field, Path, Step, TypeForm};
use crate::language::rows::meant_or_known;
use crate::mistake::Position;
use crate::streams::record::{CASES, STREAM_RECORDS};
use crate::words::{listed, named};
use std::collections::BTreeMap;

impl Assembler<'_> {
    /// What is below a match at a place: its path, then the arms in the order of the cases, whatever the
    /// order is in which they are written. In each the case's content is one variable more.
    pub(super) fn arms(
        &mut self,
        at: Position,
        path: &Path,
        arms: &[Arm],
        scope: &mut Scope,
        sheet: &mut Sheet,
    ) {
        let known = self.path(path, scope, sheet);
        // As for paths, nothing is looked up past what a stream holds.
        let looked_up = sheet.records.len() <= STREAM_RECORDS && self.on_variant(path, arms, known);
        let ordered = match looked_up {
            true => self.ordered(at, arms, known),
            false => arms.iter().map(|arm| (usize::MAX, arm)).collect(),
        };
        for (number, arm) in ordered {
            let of = self.case_type(number, known);
            let case = self.cases(known).get(number);
            let case = case.map(|case| (What::Case, case.name.word.clone()));
            let content = arm.content.word.clone();
            let head = sheet.records.len();
            scope.variables.push((content.clone(), of));
            self.node(&arm.node, scope, sheet);
            scope.variables.pop();
            let own = case.into_iter().chain([(What::Content, content)]);
            sheet.origins[head].names.splice(0..0, own);
        }
    }

    /// Whether a match may be one on a variant. What is known to be none has one mistake, whatever the arms
    /// are; where these go by their numbers, it is left to the check.
    fn on_variant(&mut self, path: &Path, arms: &[Arm], known: Known) -> bool {
        let holder = known.and_then(|number| self.rows.forms.get(usize::from(number)));
        let by_number = arms.iter().all(|arm| matches!(arm.case.by, By::Number(_)));
        let Some((name, form)) = holder.filter(|_| !by_number) else {
            return true;
        };
        let is_variant = matches!(form, TypeForm::Variant(_));
        if !is_variant {
            let holder = named(name);
            let message = format!("a match asks for a variant, and the type {holder} is none");
            self.mistake(path.variable.at, message);
        }
        is_variant
    }

    /// The cases of a type; one that is no variant has none. Where there are more than a variant may have,
    /// the others are a mistake, and to look names up among all of them may take long.
    fn cases(&self, known: Known) -> &[Field] {
        match self.rows.form(known) {
            Some(TypeForm::Variant(cases)) => &cases[..cases.len().min(CASES)],
            _ => &[],
        }
    }

    /// The type of a case's content, if it is known.
    pub(super) fn case_type(&self, number: usize, known: Known) -> Known {
        let case = self.cases(known).get(number)?;
        self.rows.type_named(&case.of)
    }

    /// The arms in the order of their cases, with the numbers of these; an arm for a case that isn't there
    /// comes behind. Each case has one arm: any other row would stand for other cases than it names.
    fn ordered<'a>(
        &mut self,
        at: Position,
        arms: &'a [Arm],
        known: Known,
    ) -> Vec<(usize, &'a Arm)> {
        let mut found: BTreeMap<usize, &Arm> = BTreeMap::new();
        let mut ordered = Vec::new();
        for arm in arms {
            let number = self.case_number(&arm.case, known);
            ordered.push((number.unwrap_or(usize::MAX), arm));
            let first = number.map(|number| *found.entry(number).or_insert(arm));
            if let Some(first) = first.filter(|&first| !std::ptr::eq(first, arm)) {
                let (case, line) = (named(&arm.case.by.to_string()), first.case.at.line);
                let message = format!("case {case} has an arm already, at line {line}");
                self.mistake(arm.case.at, message);
            }
        }
        ordered.sort_by_key(|&(number, _)| number);
        // A case that seems to have no arm may be one whose name is misspelt in another.
        if ordered.iter().all(|&(number, _)| number != usize::MAX) {
            self.missing(at, &found, known);
        }
        ordered
    }

    /// The mistake of cases that have no arm. Where arms go by their numbers, these are in a row from 0 on,
    /// and whether they are as many as the cases is left to the check.
    fn missing(&mut self, at: Position, found: &BTreeMap<usize, &Arm>, known: Known) {
        let is_number = |arm: &&Arm| matches!(arm.case.by, By::Number(_));
        let count = match found.values().any(is_number) {
            true => found.last_key_value().map_or(0, |(last, _)| last + 1),
            false => self.cases(known).len(),
        };
        let cases = self.cases(known);
        // A case with the name of another one is a mistake of its own.
        let is_first = |number: &usize| match cases.get(*number) {
            Some(own) => {
                let first = cases.iter().position(|it| it.name.word == own.name.word);
                first == Some(*number)
            }
            None => true,
        };
        let missing = (0..count).filter(|number| !found.contains_key(number) && is_first(number));
        let missing: Vec<String> = missing
            .map(|number| match cases.get(number) {
                Some(case) => named(&case.name.word),
                None => number.to_string(),
            })
            .collect();
        let cases = if missing.len() == 1 { "case" } else { "cases" };
        if !missing.is_empty() {
            let message = format!("this match has no arm for {cases} {}", listed(&missing));
            self.mistake(at, message);
        }
    }

    /// The number of a case of a type. One that is given by its number need not be there.
    pub(super) fn case_number(&mut self, case: &Step, known: Known) -> Option<usize> {
        let word = match &case.by {
            By::Number(number) => return Some(usize::from(*number)),
            By::Name(word) => word,
        };
        let cases = self.cases(known);
        let number = cases.iter().position(|it| it.name.word == *word);
        if number.is_none() && !self.is_too_wide(known) {
            let names = cases.iter().map(|it| it.name.word.as_str());
            let near = meant_or_known(word, names, self.mistakes.len(), "it has");
            self.no_case(word, case, known, &near);
        }
        number
    }

    /// Whether a type is a variant of more cases than one may have: then a case of it may be one of those.
    fn is_too_wide(&self, known: Known) -> bool {
        let form = self.rows.form(known);
        matches!(form, Some(TypeForm::Variant(cases)) if cases.len() > CASES)
    }

    /// The mistake of a case that isn't there, unless what stands before it has a mistake already.
    fn no_case(&mut self, word: &str, case: &Step, known: Known, near: &str) {
        let word = named(word);
        let holder = known.and_then(|number| self.rows.forms.get(usize::from(number)));
        let message = match holder {
            Some((name, TypeForm::Variant(_))) => {
                format!("the type {} has no case {word}{near}", named(name))
            }
            Some((name, _)) => {
                let holder = named(name);
                format!("the type {holder} is no variant, and has no case {word}")
            }
            None if self.mistakes.is_empty() => {
                format!("case {word} is of no known type: give it by its number")
            }
            None => return,
        };
        self.mistake(case.at, message);
    }
}
