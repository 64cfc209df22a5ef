//! The parts of a value whose layout is sound.

use crate::streams::record::Record;

/// The values right below one, in their order: a list's items, a record's fields, or a case's content.
pub fn children(value: &[Record], at: usize) -> impl Iterator<Item = usize> + '_ {
    let count = value.get(at).map_or(0, |head| match head.kind() {
        3 | 4 => usize::from(head.d()),
        5 => 1,
        _ => 0,
    });
    let next = |&at: &usize| value.get(at).map(|&head| at + size(head));
    std::iter::successors(Some(at + 1), next)
        .take(count)
        .filter(|&child| child < value.len())
}

/// The records of a value; a yes/no has no size field.
fn size(head: Record) -> usize {
    match head.kind() {
        2 => 1,
        _ => usize::from(head.c()).max(1),
    }
}

/// The way from the whole value to the one at a record: each value on it, and which child of the one
/// before it is.
pub fn down_to(value: &[Record], place: usize) -> Option<Vec<(usize, usize)>> {
    let (mut found, mut at) = (Vec::new(), 0);
    while at != place {
        let row = (0..).zip(children(value, at));
        let (child, start) = row.take_while(|&(_, start)| start <= place).last()?;
        found.push((child, start));
        at = start;
    }
    Some(found)
}
