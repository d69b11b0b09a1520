//! The shortest file of books with bad rows: each number in each class, at the first, a middle and the
//! last row of the class; several faults and several bad rows; rows far into a book.

use super::build::{book, clean, only, shortest, Case};
use super::faults::{bad_rows, several};
use super::floating::{other_classes, several_faults};
use books::names::FLOATING;
use books::Row;

/// The places in `bad_rows` of one row for each of 4 to 9.
const ONE_EACH: [usize; 6] = [0, 2, 4, 6, 8, 11];

/// A row of each number that a class has, and of 15 in each way, with an issue number of its own.
fn one_each(class: usize) -> Vec<Row> {
    let mut rows = ONE_EACH.map(|at| bad_rows(class)[at]).to_vec();
    if class == 0 {
        let note = clean(0).with_kind(FLOATING);
        let terms = [(361, 400), (90, 36_001), (90, 89)];
        rows.extend(terms.map(|(fixing, maturity)| note.with_days(fixing).with_coupon(maturity)));
    }
    let numbered = rows.iter().zip(0xab01..);
    numbered.map(|(row, issue)| row.with_issue(issue)).collect()
}

/// Books with one bad row: first, in the middle and last of its class, in each class.
fn places() -> Vec<Vec<u8>> {
    let mut books = Vec::new();
    for class in 0..4 {
        for bad in one_each(class) {
            for place in 0..3 {
                let mut bodies: [Vec<Row>; 4] = [0, 1, 2, 3].map(|class| vec![clean(class)]);
                bodies[class] = vec![clean(class); 3];
                bodies[class][place] = bad;
                books.push(book(bodies.each_ref().map(|body| &body[..])));
            }
        }
    }
    books
}

/// The other bad rows of each class, each alone: such a book is its own shortest file.
fn alone() -> Vec<Vec<u8>> {
    let mut books = Vec::new();
    for class in 0..4 {
        let rows = bad_rows(class).into_iter().enumerate();
        let others = rows.filter(|(at, _)| !ONE_EACH.contains(at));
        books.extend(others.map(|(_, bad)| only(class, &[bad])));
    }
    books
}

/// A bad row in each of two classes, the later one with the smaller number; and two in one class.
fn two_bad() -> Vec<Vec<u8>> {
    let mut books = Vec::new();
    for first in 0..4 {
        for last in first..4 {
            let mut bodies: [Vec<Row>; 4] = [0, 1, 2, 3].map(|class| vec![clean(class)]);
            bodies[first].push(bad_rows(first)[8]);
            bodies[last].push(bad_rows(last)[0]);
            books.push(book(bodies.each_ref().map(|body| &body[..])));
        }
    }
    books
}

/// The places, by class and row of the class, of a bad row in a book of 1,000 rows of each class.
const FAR: [(usize, usize); 9] = [
    (0, 0),
    (0, 255),
    (0, 256),
    (1, 0),
    (1, 999),
    (2, 0),
    (2, 500),
    (3, 0),
    (3, 999),
];

/// A book for each of them, and 4,000 rows of one class of which the last is bad.
fn far() -> Vec<Vec<u8>> {
    let mut books: Vec<Vec<u8>> = Vec::new();
    for (class, place) in FAR {
        let mut bodies: [Vec<Row>; 4] = [0, 1, 2, 3].map(|class| vec![clean(class); 1_000]);
        bodies[class][place] = bad_rows(class)[11];
        books.push(book(bodies.each_ref().map(|body| &body[..])));
    }
    for class in 0..4 {
        let mut rows = vec![clean(class); 4_000];
        rows[3_999] = bad_rows(class)[4];
        books.push(only(class, &rows));
    }
    books
}

/// All of them, into outputs that are just long enough or longer.
pub fn cases() -> Vec<Case> {
    let books = [places(), alone(), two_bad(), far(), several()].concat();
    let notes = [several_faults(), other_classes()].concat();
    let rooms = [24, 25, 40].into_iter().cycle();
    let books = books.iter().chain(&notes).zip(rooms);
    books.map(|(book, room)| shortest(book, room)).collect()
}

#[cfg(test)]
mod tests {
    use super::*;

    /// The number and row of each book.
    fn refusals(books: &[Vec<u8>]) -> Vec<[u64; 2]> {
        let refused = books.iter().map(|book| second::check(book));
        refused.map(|told| [told.number, told.row]).collect()
    }

    /// Catches books that are refused for another reason than they are stored for, or elsewhere.
    #[test]
    fn refusals_by_hand() {
        let mut expected = Vec::new();
        for class in 0..4 {
            let notes: &[u64] = if class == 0 { &[15, 15, 15] } else { &[] };
            for number in (4..=9).chain(notes.iter().copied()) {
                expected.extend([0, 1, 2].map(|place| [number, class + place]));
            }
        }
        assert_eq!(refusals(&places()), expected);
        let alone = refusals(&alone());
        assert_eq!(alone.len(), 4 * 7);
        assert!(alone
            .iter()
            .all(|[number, row]| (4..=9).contains(number) && *row == 0));
    }

    #[test]
    fn the_first_bad_row_by_hand() {
        let expected = [0, 1, 2, 3].map(|class| vec![[8, 1 + class]; 4 - class as usize]);
        assert_eq!(refusals(&two_bad()), expected.concat());
        let mut expected = FAR
            .map(|(class, place)| [9, (1_000 * class + place) as u64])
            .to_vec();
        expected.extend([[6, 3_999]; 4]);
        assert_eq!(refusals(&far()), expected);
    }

    /// Each book shows its bad row, under contents of its class alone.
    #[test]
    fn what_is_shown_by_hand() {
        let shown = |book: &Vec<u8>| second::shortest_file(book).unwrap();
        let per_class = [9, 6, 6, 6].map(|rows| 3 * rows);
        let mut books = places().into_iter();
        for (class, count) in per_class.into_iter().enumerate() {
            let rows = one_each(class).into_iter().flat_map(|bad| [bad; 3]);
            for (book, bad) in books.by_ref().take(count).zip(rows) {
                assert_eq!(shown(&book), only(class, &[bad]));
            }
        }
        assert!(books.next().is_none());
        assert!(alone().iter().all(|book| shown(book) == *book));
    }
}
