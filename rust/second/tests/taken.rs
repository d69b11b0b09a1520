//! How many rows are taken: all of an accepted book, none of a refused one (document 02, P4).

mod common;
use common::*;
use second::join;

/// Four bodies of so many clean rows each.
fn clean_rows(counts: [usize; 4]) -> Vec<Bytes> {
    let bodies = counts.iter().enumerate();
    bodies
        .flat_map(|(class, count)| vec![clean(class); *count])
        .collect()
}

/// A file of so many clean rows of each class.
fn clean_book(counts: [usize; 4]) -> Vec<u8> {
    file(counts.map(|count| count as u16), &clean_rows(counts))
}

#[test]
fn each_row_of_each_class_is_taken_once() {
    let counts = [
        ([0; 4], 0),
        ([1, 0, 0, 0], 1),
        ([0, 1, 0, 0], 1),
        ([0, 0, 1, 0], 1),
        ([0, 0, 0, 1], 1),
        ([1, 2, 3, 4], 10),
        ([300, 0, 257, 1], 558),
        ([1700, 900, 600, 800], 4000),
        ([0, 4000, 0, 0], 4000),
    ];
    for (counts, rows) in counts {
        let report = charge(&clean_book(counts));
        assert_eq!(report.taken, rows, "{counts:?}");
        assert_eq!(report.entries()[10], rows, "{counts:?}");
    }
}

/// The rows taken come after the total, and are not part of it. No currency has a charge.
#[test]
fn the_entry_after_the_total() {
    let book = equity(&[row(3, 1, 0, 0, 100), row(3, 3, 0, 0, -40)]);
    let by_hand = [0, 0, 0, 0, 0, 8_800_000, 4_800_000, 0, 0, 13_600_000, 2];
    let entries = charge(&book).entries();
    assert_eq!(entries[..11], by_hand);
    assert_eq!(entries[11..], [0; 64]);
}

/// A file that is refused before its rows, at its first row, and at its last of 4,000.
#[test]
fn nothing_is_taken_of_a_refused_book() {
    let counts = [1700, 900, 600, 800];
    let whole = clean_book(counts);
    let spoiled = |at: usize, bad: Bytes| {
        let mut rows = clean_rows(counts);
        rows[at] = bad;
        file(counts.map(|count| count as u16), &rows)
    };
    let refused = [
        ((1, 0), whole[..7].to_vec()),
        ((2, 0), file([1700, 900, 600, 801], &[])),
        ((3, 0), whole[..whole.len() - 1].to_vec()),
        ((4, 0), spoiled(0, row(32, 1, 100, 500, 10))),
        ((15, 0), spoiled(0, row(1, 4, 361, 500, 10))),
        ((15, 1699), spoiled(1699, row(1, 4, 100, 99, 10))),
        ((4, 3999), spoiled(3999, row(32, 0, 400, 0, -40))),
        ((5, 3999), spoiled(3999, row(4, 1, 400, 0, -40))),
        ((6, 3999), spoiled(3999, row(4, 0, 36_001, 0, -40))),
        ((7, 3999), spoiled(3999, row(4, 0, 400, 1, -40))),
        ((8, 3999), spoiled(3999, sides(4, 0, 400, 0, 40, 40))),
        ((9, 3999), spoiled(3999, row(4, 0, 400, 0, 1_000_000_001))),
    ];
    for ((number, row), book) in refused {
        let mut expected = [0; 75];
        (expected[0], expected[1]) = (number, row);
        assert_eq!(charge(&book).entries(), expected);
    }
}

#[test]
fn a_joined_book_has_the_rows_of_both() {
    let (a, b) = (clean_book([1, 2, 0, 4]), clean_book([3, 0, 5, 1]));
    let mut out = vec![0; a.len() + b.len() - 8];
    assert!(join(&a, &b, &mut out).refusal.accepted());
    let taken = [&a, &b, &out].map(|book| charge(book).taken);
    assert_eq!(taken, [7, 9, 16]);
}
