//! Joins: made and refused, with outputs around the joined length.

use super::build::{book, clean, join, only, row, Case};
use books::Row;

/// A book with so many rows of each class, told apart by their issue numbers.
fn numbered(counts: [usize; 4], first: u16) -> Vec<u8> {
    let mut issue = first;
    let bodies: [Vec<Row>; 4] = [0, 1, 2, 3].map(|class: usize| {
        let mut next = || {
            issue += 1;
            clean(class).with_issue(issue)
        };
        (0..counts[class]).map(|_| next()).collect()
    });
    book(bodies.each_ref().map(|body| &body[..]))
}

/// Two accepted books, with outputs of every length that matters.
fn made() -> Vec<Case> {
    let counts = [
        ([0; 4], [0; 4]),
        ([1, 0, 0, 0], [0; 4]),
        ([0; 4], [0, 0, 0, 1]),
        ([1, 1, 1, 1], [1, 1, 1, 1]),
        ([2, 0, 3, 0], [0, 1, 0, 2]),
        ([0, 3, 0, 1], [4, 0, 2, 0]),
    ];
    let mut cases = Vec::new();
    for (of_a, of_b) in counts {
        let (a, b) = (numbered(of_a, 0), numbered(of_b, 1000));
        let exact = a.len() + b.len() - 8;
        for room in [0, 7, 8, exact - 1, exact, exact + 1, exact + 40] {
            cases.push(join(&a, &b, room));
        }
    }
    cases
}

/// A refused book for each number from 1 to 9.
fn bad(good: &[u8]) -> [Vec<u8>; 9] {
    let bad_row = |class: usize, bad: Row| only(class, &[clean(class), clean(class), bad]);
    [
        good[..7].to_vec(),
        vec![255; 8],
        good[..71].to_vec(),
        bad_row(0, clean(0).with_group(32)),
        bad_row(1, clean(1).with_kind(0)),
        bad_row(2, clean(2).with_days(1)),
        bad_row(3, clean(3).with_coupon(1)),
        bad_row(0, clean(0).with_sides(0, 0)),
        bad_row(0, clean(0).with_sides(1_000_000_001, 0)),
    ]
}

/// One book or both refused, with room enough and with none.
fn refused() -> Vec<Case> {
    let good = numbered([1; 4], 0);
    let bad = bad(&good);
    let mut cases = Vec::new();
    for (at, book) in bad.iter().enumerate() {
        for room in [0, 200] {
            cases.push(join(book, &good, room));
            cases.push(join(&good, book, room));
        }
        cases.push(join(book, &bad[(at + 1) % bad.len()], 200));
    }
    cases
}

/// Books around 4,000 rows together.
fn full() -> Vec<Case> {
    let rows =
        |class: usize, count: usize, net: i64| only(class, &vec![row(6, 0, 0, 0, net); count]);
    let (half, more) = (rows(2, 2000, 5), rows(3, 2001, 6));
    let (whole, one) = (rows(2, 4000, 7), rows(3, 1, 8));
    let empty = vec![0; 8];
    vec![
        join(&half, &half, 64_007),
        join(&half, &half, 64_008),
        join(&half, &half, 65_536),
        join(&half, &more, 65_536),
        join(&more, &half, 8),
        join(&whole, &empty, 64_008),
        join(&empty, &whole, 65_536),
        join(&whole, &one, 65_536),
        join(&one, &whole, 64_008),
        join(&whole, &whole, 0),
    ]
}

/// All of them.
pub fn cases() -> Vec<Case> {
    [made(), refused(), full()].concat()
}
