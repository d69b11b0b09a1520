//! How many comparisons netting makes (document 02, P7), by the rows' issue numbers alone: nothing
//! is netted here. The Amendment has no such figure.

use crate::book::{read, CLASSES};
use std::collections::hash_map::{Entry, HashMap};

/// The comparisons of one class, by the issue numbers of its rows in file order. A row that has
/// one is compared with the first row of each issue before it, in order, to the first equal: for
/// the issue in place j, from 0, that is j + 1 of them; for a new issue it is all.
fn of_class(numbers: impl Iterator<Item = u64>) -> u64 {
    let (mut places, mut made) = (HashMap::new(), 0);
    for number in numbers.filter(|number| *number != 0) {
        let seen = places.len() as u64;
        made += match places.entry(number) {
            Entry::Occupied(place) => place.get() + 1,
            Entry::Vacant(new) => *new.insert(seen),
        };
    }
    made
}

/// The comparisons of all classes of a book, each by itself. What nets to zero, or to too much, is
/// not looked at; a book that is refused at its rows or before has none.
pub fn comparisons(book: &[u8]) -> u64 {
    let rows = read(book).unwrap_or_default();
    let own = |class| rows.iter().filter(move |row| row.class == class);
    let made = CLASSES.map(|class| of_class(own(class).map(|row| row.issue)));
    made.iter().sum()
}
