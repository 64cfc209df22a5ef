//! The lists of a value, and how much of its stream each takes.

use crate::assembly::path::DataPath;
use crate::assembly::sheet::{word, Sheet};
use crate::language::description::{Description, TypeForm};
use crate::language::rows::Rows;
use crate::reasons::values::children;
use crate::streams::record::Record;

/// A list that stands in no other.
#[derive(Debug, PartialEq, Eq)]
pub struct List {
    /// Its path in the data.
    pub path: String,
    /// How many items it has.
    pub items: usize,
    /// How many records these take.
    pub records: usize,
    /// The records of the list's head and of the heads around it, from outside in.
    heads: Vec<usize>,
}

impl List {
    /// The records of the value without this list's items.
    pub fn emptied(&self, records: &[Record]) -> Vec<Record> {
        let mut left = records.to_vec();
        let Some(&head) = self.heads.last() else {
            return left;
        };
        for &around in &self.heads {
            let size = usize::from(left[around].c()).saturating_sub(self.records);
            left[around].0[4..6].copy_from_slice(&word(size).to_le_bytes());
        }
        left[head].0[6..].fill(0);
        left.drain(head + 1..head + 1 + self.records);
        left
    }
}

/// The lists of a value of the declared type that stand in no other list.
pub fn lists(tree: &Description, value: &Sheet) -> Vec<List> {
    // A head's size is a word: of more records than that it doesn't tell.
    if u16::try_from(value.records.len()).is_err() {
        return Vec::new();
    }
    let rows = Rows::of(tree, &mut Vec::new());
    let mut reader = Reader {
        rows: &rows,
        records: &value.records,
        path: DataPath::default(),
        heads: Vec::new(),
        found: Vec::new(),
    };
    reader.value(0, rows.declared(tree));
    reader.found
}

struct Reader<'a> {
    rows: &'a Rows<'a>,
    records: &'a [Record],
    path: DataPath,
    heads: Vec<usize>,
    found: Vec<List>,
}

impl Reader<'_> {
    /// Reads the value at a record; what isn't of its type is left to the check.
    fn value(&mut self, at: usize, of: Option<u16>) {
        let Some(&head) = self.records.get(at) else {
            return;
        };
        self.heads.push(at);
        match (self.rows.form(of), head.kind()) {
            (Some(TypeForm::List(_)), 3) => self.found.push(List {
                path: self.path.to_string(),
                items: usize::from(head.d()),
                records: usize::from(head.c()).saturating_sub(1),
                heads: self.heads.clone(),
            }),
            (Some(TypeForm::Record(fields)), 4) => {
                for (field, child) in fields.iter().zip(children(self.records, at)) {
                    let outside = self.path.field(&field.name.word);
                    self.value(child, self.rows.type_named(&field.of));
                    self.path.leave(outside);
                }
            }
            (Some(TypeForm::Variant(cases)), 5) => {
                if let Some(case) = cases.get(usize::from(head.a())) {
                    let outside = self.path.field(&case.name.word);
                    self.value(at + 1, self.rows.type_named(&case.of));
                    self.path.leave(outside);
                }
            }
            _ => {}
        }
        self.heads.pop();
    }
}

#[cfg(test)]
mod tests {
    use super::*;
    use crate::assembly::assemble::Assembled;
    use crate::language::parser::parse;
    use crate::mistake::end_of;

    fn value(text: &str) -> (Description, Sheet) {
        let description = format!(
            "class c 0 to 9 {{ 'a'-'z' }} production p of n = type t = text c type l = list t
             type f = yesno type i = record {{ words: l }} type r = record {{ one: t inner: i flag: f many: l }}
             template a (r: r) of n = build p value {text}"
        );
        let tree = parse(&description).expect("a tree");
        let set = Assembled::of(&tree, end_of(&description)).expect("streams");
        (tree, set.value.expect("a value").sheet)
    }

    const FULL: &str = r#"{ "x" { ["ab" "cd"] } yes ["abcdefghi"] }"#;

    #[test]
    fn lists_with_their_paths() {
        let (tree, sheet) = value(FULL);
        let found: Vec<(String, usize, usize)> = lists(&tree, &sheet)
            .into_iter()
            .map(|list| (list.path, list.items, list.records))
            .collect();
        let list = |path: &str, items, records| (path.to_string(), items, records);
        assert_eq!(found, [list("`inner.words`", 2, 4), list("`many`", 1, 3)]);
    }

    #[test]
    fn a_list_without_its_items() {
        let (tree, sheet) = value(FULL);
        let found = lists(&tree, &sheet);
        let (_, without) = value(r#"{ "x" { [] } yes ["abcdefghi"] }"#);
        assert_eq!(found[0].emptied(&sheet.records), without.records);
        let (_, without) = value(r#"{ "x" { ["ab" "cd"] } yes [] }"#);
        assert_eq!(found[1].emptied(&sheet.records), without.records);
    }
}
