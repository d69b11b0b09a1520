//! Refusals of netting: 13 for each field and in each class, 14, their rows and their order, and
//! what comes before and after them.

use super::build::{book, clean, net, only, row, Case};
use super::faults::{bad_rows, contents};
use super::nets::{bond, MOST};
use books::names::FLOATING;
use books::Row;

/// Rows that differ from another of their class in one field, and are accepted.
fn unlike(class: usize) -> Vec<Row> {
    let row = clean(class);
    let group = row.with_group(row.group + 1);
    match class {
        0 => vec![
            group,
            row.with_kind(3),
            row.with_days(401),
            row.with_coupon(501),
        ],
        1 => vec![group, row.with_kind(3)],
        2 => vec![group],
        _ => vec![group, row.with_days(401), row.with_days(400 + 256)],
    }
}

/// Books whose third or last row is unlike the first of its issue, beside rows of other classes.
pub fn differing() -> Vec<Vec<u8>> {
    let mut books = Vec::new();
    for class in 0..4 {
        for other in unlike(class) {
            let mut bodies: [Vec<Row>; 4] = [0, 1, 2, 3].map(|class| vec![clean(class)]);
            let (first, other) = (clean(class).with_issue(9), other.with_issue(9));
            bodies[class] = vec![first, clean(class), other, first];
            books.push(book(bodies.each_ref().map(|body| &body[..])));
            bodies[class] = vec![first, first.mirrored(), other.with_issue(8), other];
            books.push(book(bodies.each_ref().map(|body| &body[..])));
        }
    }
    let note = |fixing, maturity| row(7, FLOATING, fixing, maturity, 5).with_issue(9);
    for other in [
        note(90, 2_881),
        note(91, 2_880),
        note(90, 2_880).with_kind(2),
    ] {
        books.push(only(0, &[note(90, 2_880), other]));
    }
    books
}

/// Several issues that cannot be netted: the first differing row, the earliest issue, and all of
/// 13 before any 14.
pub fn several() -> Vec<Vec<u8>> {
    let (one, other) = (
        |issue| bond(issue, 5),
        |issue| bond(issue, 5).with_days(270),
    );
    let most = |issue| bond(issue, MOST);
    let shares =
        |kind: u8| [row(3, 1, 0, 0, 5), row(3, kind, 0, 0, MOST)].map(|row| row.with_issue(2));
    vec![
        only(0, &[one(1), one(2), other(2), other(1)]),
        only(0, &[one(1), other(1), one(2), other(2)]),
        only(0, &[most(1), one(1), other(1)]),
        only(0, &[one(1), one(2), most(2), most(1)]),
        only(0, &[most(1), most(1), one(2), other(2)]),
        book([&[most(1), most(1)], &shares(3), &[], &[]]),
        book([&[most(1), most(1)], &shares(1), &[], &[]]),
        book([&[one(1), one(1)], &shares(1), &[], &[]]),
        book([&[one(2), other(1)], &shares(3), &[], &[]]),
    ]
}

/// Nets over the limit by one, by much and past 32 bits, long and short, at the first row of their
/// issue.
pub fn over() -> Vec<Vec<u8>> {
    let mut books = Vec::new();
    for class in 0..4 {
        for side in [1, -1] {
            for nets in [vec![MOST, 1], vec![1, -MOST, MOST, MOST], vec![MOST; 5]] {
                let rows = nets.iter().map(|net| row(4, 0, 0, 0, side * net));
                let kind = u8::from(class < 2);
                let rows = rows.map(|row| row.with_kind(kind).with_issue(9));
                books.push(only(class, &[vec![clean(class)], rows.collect()].concat()));
            }
        }
    }
    // 4 × 10^9 and 294,967,296 are 2^32: nothing is left of 32 bits.
    let wraps = [MOST, MOST, MOST, MOST, 294_967_296].map(|net| bond(5, net));
    books.push(only(0, &wraps));
    books
}

/// A bad row of each class after issues that cannot be netted, and a broken note.
pub fn before_issues() -> Vec<Vec<u8>> {
    let pair = [
        bond(1, MOST),
        bond(1, MOST),
        bond(2, 5),
        bond(2, 5).with_days(270),
    ];
    let mut books = Vec::new();
    for class in 0..4 {
        for bad in bad_rows(class).into_iter().step_by(2) {
            let mut bodies: [Vec<Row>; 4] = [0, 1, 2, 3].map(|class| vec![clean(class)]);
            bodies[0] = pair.to_vec();
            bodies[class].push(bad);
            books.push(book(bodies.each_ref().map(|body| &body[..])));
        }
    }
    books.push(only(
        0,
        &[&pair[..], &[row(1, FLOATING, 361, 400, 1)]].concat(),
    ));
    books
}

/// All of them: issues that cannot be netted with outputs of three lengths, the others with one.
pub fn cases() -> Vec<Case> {
    let issues = [differing(), several(), over()].concat();
    let mut cases: Vec<Case> = Vec::new();
    for book in &issues {
        cases.extend([0, 8, book.len()].map(|room| net(book, room)));
    }
    let others = [contents(), before_issues()].concat();
    cases.extend(others.iter().map(|book| net(book, book.len().min(65_536))));
    cases
}

#[cfg(test)]
mod tests {
    use super::*;

    /// The numbers and rows of some books' refusals.
    fn refusals(books: &[Vec<u8>]) -> Vec<[u64; 2]> {
        let refused = books.iter().map(|book| second::netted(book).unwrap_err());
        refused
            .map(|refusal| [refusal.number, refusal.row])
            .collect()
    }

    /// Catches books that are refused for another reason than they are stored for.
    #[test]
    fn thirteen_is_of_the_row_that_differs() {
        let differing = refusals(&differing());
        let mut expected = Vec::new();
        for (class, fields) in [4, 2, 1, 3].into_iter().enumerate() {
            let before = class as u64;
            for _ in 0..fields {
                expected.extend([[13, before + 2], [13, before + 3]]);
            }
        }
        expected.extend([[13, 1]; 3]);
        assert_eq!(differing, expected);
    }

    #[test]
    fn several_issues_by_hand() {
        let expected = [
            [13, 2],
            [13, 1],
            [13, 2],
            [14, 0],
            [13, 3],
            [13, 3],
            [14, 0],
            [14, 2],
            [13, 3],
        ];
        assert_eq!(refusals(&several()), expected);
        assert!(refusals(&over())[..24]
            .iter()
            .all(|refusal| *refusal == [14, 1]));
        assert_eq!(refusals(&over())[24], [14, 0]);
    }

    /// Catches bad rows that are told after an issue, or that stand before it.
    #[test]
    fn bad_rows_come_before_issues() {
        for book in before_issues() {
            let refusal = second::netted(&book).unwrap_err();
            assert_eq!(refusal, second::check(&book));
            assert!(refusal.row >= 4, "{refusal:?}");
        }
    }
}
