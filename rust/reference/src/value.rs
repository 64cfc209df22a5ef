//! The value stream: exactly one value.

use crate::records::{ask, Broken, Nesting, Reader, Record, Records};

/// A value whose layout holds: itself and all below it, in record order.
pub(crate) struct Value<'a> {
    pub(crate) items: Vec<Item<'a>>,
    /// The fields of all records: for each record a row of indexes of items.
    fields: Vec<usize>,
}

/// A value within the value. Its children follow it in the table, each with all that is below it.
pub(crate) struct Item<'a> {
    pub(crate) place: usize,
    /// The whole value counts 1.
    pub(crate) depth: usize,
    /// The index behind all that is below it.
    pub(crate) next: usize,
    pub(crate) content: Content<'a>,
}

/// The five kinds of value.
#[derive(Clone, Copy)]
pub(crate) enum Content<'a> {
    Text(&'a [u8]),
    YesNo(bool),
    List,
    /// Where its row of fields begins, and how many there are.
    Record {
        first: usize,
        count: usize,
    },
    /// The number of a variant's case. Its one child is the content.
    Case(u8),
}

impl<'a> Value<'a> {
    /// Reads the layout of a value stream.
    pub(crate) fn read(records: &'a Records) -> Result<Self, Broken> {
        let mut reader = records.reader();
        let mut value = Value {
            items: Vec::new(),
            fields: Vec::new(),
        };
        value.read_tree(&mut reader)?;
        reader.finish()?;
        value.index_fields();
        Ok(value)
    }

    fn read_tree(&mut self, reader: &mut Reader<'a>) -> Result<(), Broken> {
        let mut nesting = Nesting::default();
        loop {
            let (place, depth) = (reader.place(), nesting.depth());
            let head = reader.record()?;
            let (content, size, children) = read_content(reader, head)?;
            nesting.open(self.items.len(), place + usize::from(size), children);
            self.items.push(Item {
                place,
                depth,
                next: 0,
                content,
            });
            while let Some(closed) = nesting.close(reader.place())? {
                self.items[closed].next = self.items.len();
            }
            if nesting.is_done() {
                return Ok(());
            }
        }
    }

    /// Lays out each record's row of fields, so that a path finds any field at once.
    fn index_fields(&mut self) {
        for index in 0..self.items.len() {
            let first = self.fields.len();
            if let Content::Record { count, .. } = self.items[index].content {
                let mut child = index + 1;
                for _ in 0..count {
                    self.fields.push(child);
                    child = self.items[child].next;
                }
                self.items[index].content = Content::Record { first, count };
            }
        }
    }

    /// The indexes of a list's items, a record's fields or a case's content, in order.
    pub(crate) fn children(&self, index: usize) -> impl Iterator<Item = usize> + '_ {
        let end = self.items[index].next;
        let within = move |&child: &usize| child < end;
        std::iter::successors(Some(index + 1).filter(within), move |&child| {
            Some(self.items[child].next).filter(within)
        })
    }

    /// The index of a record's field.
    pub(crate) fn field(&self, index: usize, field: u8) -> Option<usize> {
        match self.items[index].content {
            Content::Record { first, count } if usize::from(field) < count => {
                Some(self.fields[first + usize::from(field)])
            }
            _ => None,
        }
    }
}

/// Reads what stands between a value's head and its children; answers its size, too, and how many
/// children there are.
fn read_content<'a>(
    reader: &mut Reader<'a>,
    head: Record,
) -> Result<(Content<'a>, u16, u16), Broken> {
    let (a, b, c, d) = (head.a(), head.b(), head.c(), head.d());
    match head.kind() {
        1 => {
            ask(a == 0 && d == 0)?;
            Ok((Content::Text(reader.text(b)?), c, 0))
        }
        2 => {
            ask(a <= 1 && b == 0 && c == 0 && d == 0)?;
            Ok((Content::YesNo(a == 1), 1, 0))
        }
        3 => {
            ask(a == 0 && b == 0)?;
            Ok((Content::List, c, d))
        }
        4 => {
            ask(a == 0 && b == 0)?;
            let (first, count) = (0, d.into());
            Ok((Content::Record { first, count }, c, d))
        }
        5 => {
            ask(b == 0 && d == 0)?;
            Ok((Content::Case(a), c, 1))
        }
        _ => Err(Broken),
    }
}
