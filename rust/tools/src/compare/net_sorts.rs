//! What is told apart of books that are netted or refused: their issues, the field that differs,
//! and what else there is in the file.

use super::issues::{differ, Issue};
use books::names::floating;
use books::{Book, Row};

/// The names of the sorts of netted books.
pub const SORTS: [&str; 6] = [
    "with fewer rows",
    "with a net of zero",
    "with a number in two classes",
    "with like rows numbered 0",
    "with a sum that comes back",
    "with a net at the limit",
];

/// What a row may have that the first of its issue has not.
pub const FIELDS: [&str; 5] = ["group", "kind", "days", "coupon", "final maturity"];

/// The names of what else came before, beside or after a refusal.
pub const ORDERS: [&str; 7] = [
    "13 in several classes",
    "14 in several classes",
    "13 after a 14 in the file",
    "a bad row after a 13",
    "a bad row after a 14",
    "13 without room",
    "14 without room",
];

/// Whether a class has two rows numbered 0 that would be netted if that were an issue.
fn like_unnumbered(book: &Book) -> bool {
    let like = |rows: &Vec<Row>| {
        let mut rows = rows.iter().filter(|row| row.issue == 0);
        let first = rows.next().copied().unwrap_or_default();
        rows.any(|row| differ(&first, row) == [false; 4])
    };
    book.classes.iter().any(like)
}

/// Of which sorts a book is that was netted to one of so many rows.
pub fn sorts(book: &Book, issues: &[Issue], left: usize) -> [bool; 6] {
    let twice = |one: &Issue| {
        let other = |other: &Issue| one.number == other.number && one.class < other.class;
        issues.iter().any(other)
    };
    [
        left < book.rows(),
        issues.iter().any(|issue| issue.net() == 0),
        issues.iter().any(twice),
        like_unnumbered(book),
        issues.iter().any(Issue::comes_back),
        issues.iter().any(Issue::at_limit),
    ]
}

/// The only field in which a row differs from the first of its issue, if it is one.
pub fn only_field(class: usize, first: &Row, row: &Row) -> Option<usize> {
    match differ(first, row) {
        [true, false, false, false] => Some(0),
        [false, true, false, false] => Some(1),
        [false, false, true, false] => Some(2),
        [false, false, false, true] => Some(3 + usize::from(floating(class, row.kind))),
        _ => None,
    }
}

/// How many classes have an issue of a sort.
fn classes(issues: &[Issue], sort: impl Fn(&&Issue) -> bool) -> usize {
    let mut classes: Vec<usize> = issues
        .iter()
        .filter(sort)
        .map(|issue| issue.class)
        .collect();
    classes.dedup();
    classes.len()
}

/// What else there is in a book that is refused with a number at a row, and an output.
pub fn orders(issues: &[Issue], number: u64, row: usize, room: usize) -> [bool; 7] {
    let unlike = classes(issues, |issue| issue.unlike().is_some());
    let over = classes(issues, |issue| issue.over());
    let before = |issue: &Issue| issue.over() && issue.first() < row;
    let bad_row = matches!(number, 4..=9 | 15);
    let differs = |issue: &Issue| issue.unlike().is_some_and(|(at, _)| at < row);
    let ended = |issue: &Issue| issue.over() && issue.rows.iter().all(|(at, _)| *at < row);
    [
        number == 13 && unlike > 1,
        number == 14 && over > 1,
        number == 13 && issues.iter().any(before),
        bad_row && issues.iter().any(differs),
        bad_row && issues.iter().any(ended),
        number == 13 && room < 8,
        number == 14 && room < 8,
    ]
}
