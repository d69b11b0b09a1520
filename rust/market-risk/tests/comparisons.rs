//! How many comparisons netting makes, over the linked library: books worked by hand, the bound,
//! and zero on every refusal.

use market_risk::{net, raw, Netted};

const MOST: u32 = 1_000_000_000;

/// A row of 16 bytes that every class accepts with its own kind: issue, long and short.
fn row(kind: u8, issue: u16, long: u32, short: u32) -> [u8; 16] {
    let mut row = [0; 16];
    (row[0], row[1]) = (7, kind);
    row[6..8].copy_from_slice(&issue.to_le_bytes());
    row[8..12].copy_from_slice(&long.to_le_bytes());
    row[12..].copy_from_slice(&short.to_le_bytes());
    row
}

/// A book whose classes have rows of these issues, long 1 each.
fn book(classes: [&[u16]; 4]) -> Vec<u8> {
    let kinds = [1, 1, 0, 0];
    let counts = classes.map(|issues| (issues.len() as u16).to_le_bytes());
    let rows = classes.iter().zip(kinds).flat_map(|(issues, kind)| {
        let rows = issues.iter().map(move |issue| row(kind, *issue, 1, 0));
        rows.collect::<Vec<_>>()
    });
    [counts.concat(), rows.collect::<Vec<_>>().concat()].concat()
}

/// A book of interest rows as they are given.
fn interest(rows: &[[u8; 16]]) -> Vec<u8> {
    let count = (rows.len() as u16).to_le_bytes();
    [&count[..], &[0; 6], &rows.concat()].concat()
}

/// The comparisons of a book that is netted.
fn comparisons(book: &[u8]) -> u64 {
    let mut out = vec![0; book.len()];
    let Netted { comparisons, .. } = net(book, &mut out).unwrap();
    comparisons
}

/// The comparisons of interest rows of these issues.
fn of(issues: &[u16]) -> u64 {
    comparisons(&book([issues, &[], &[], &[]]))
}

/// Catches a first row that is compared with itself, an equal one that is not counted, and a search
/// that goes on after it.
#[test]
fn by_hand() {
    assert_eq!([of(&[]), of(&[5]), of(&[5, 5]), of(&[5, 6])], [0, 0, 1, 1]);
    assert_eq!(of(&[5, 5, 5, 5]), 3);
    // 0, 1, 2; then the third, the second and the first of them.
    assert_eq!(of(&[5, 6, 7, 7, 6, 5]), 3 + 3 + 2 + 1);
}

/// Catches a count of the netted rows alone: it depends on their order.
#[test]
fn the_count_changes_with_the_order() {
    assert_eq!([of(&[1, 1, 2]), of(&[1, 2, 2]), of(&[1, 2, 1])], [2, 3, 2]);
}

/// Catches number 0 that is compared, or that other rows are compared with, and classes that are
/// searched together.
#[test]
fn rows_without_a_number_are_free_and_classes_apart() {
    assert_eq!([of(&[0, 0, 0]), of(&[0, 5, 0, 5, 0])], [0, 1]);
    assert_eq!(comparisons(&book([&[5], &[5], &[6], &[7]])), 0);
    assert_eq!(
        comparisons(&book([&[5, 6], &[6, 5], &[0, 5], &[5, 5, 5]])),
        4
    );
}

/// Catches an issue that is forgotten once it nets to zero.
#[test]
fn an_issue_that_nets_to_zero_counts() {
    let (long, short) = (row(1, 5, 3, 0), row(1, 5, 0, 3));
    let book = interest(&[long, short, row(1, 6, 1, 0), row(1, 6, 1, 0)]);
    assert_eq!(comparisons(&book), 1 + 1 + 2);
}

/// n rows of n issues in one class cost n(n - 1)/2, and no other book of so many rows costs more.
#[test]
fn the_bound_is_reached() {
    for rows in [0, 1, 2, 3, 64, 65, 4_000] {
        let all: Vec<u16> = (1..=rows).collect();
        let bound = u64::from(rows) * u64::from(rows).saturating_sub(1) / 2;
        assert_eq!(of(&all), bound, "{rows}");
        let one = vec![9; usize::from(rows)];
        assert_eq!(of(&one), u64::from(rows).saturating_sub(1), "{rows}");
    }
    let half: Vec<u16> = (1..=2_000).collect();
    let turned: Vec<u16> = half.iter().rev().copied().collect();
    // 1,999,000 for the first rows; then 1 to 2,000.
    assert_eq!(of(&[half.clone(), turned].concat()), 1_999_000 + 2_001_000);
    assert_eq!(comparisons(&book([&half, &[], &[], &half])), 2 * 1_999_000);
}

/// Catches a count that is kept: refused books in which rows share issues, and outputs without room.
#[test]
fn a_refused_call_has_made_none() {
    let one = row(1, 5, 1, 0);
    let mut other = one;
    other[2] = 9;
    let whole = interest(&[one, one, row(1, 6, 1, 0)]);
    let refused = [
        (1, whole[..7].to_vec()),
        (2, [&[255; 8], &whole[8..]].concat()),
        (3, whole[..55].to_vec()),
        (4, interest(&[one, one, [32; 16]])),
        (5, interest(&[one, one, row(5, 6, 1, 0)])),
        (8, interest(&[one, one, row(1, 6, 1, 1)])),
        (9, interest(&[one, one, row(1, 6, MOST + 1, 0)])),
        (
            15,
            interest(&[
                one,
                one,
                [7, 4, 0x69, 1, 0x69, 1, 6, 0, 1, 0, 0, 0, 0, 0, 0, 0],
            ]),
        ),
        (13, interest(&[one, one, other])),
        (14, interest(&[one, one, row(1, 5, MOST, 0)])),
    ];
    for (number, book) in refused {
        let mut result = [u64::MAX; 5];
        raw::net(&book, &mut [0; 100], &mut result);
        assert_eq!([result[0], result[3], result[4]], [number, 0, 0]);
    }
    assert_eq!(comparisons(&whole), 2);
    for room in 0..40 {
        let mut result = [u64::MAX; 5];
        raw::net(&whole, &mut vec![0; room], &mut result);
        assert_eq!(result, [12, 0, 0, 0, 0], "{room}");
    }
}
