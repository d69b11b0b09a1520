//! The dearest book, by hand: its rows and its total, every limit of rows and amounts, and that no book
//! of few rows is dearer.

mod common;
use common::*;
use second::{check, dearest, dearest_book};

/// The greatest amount, and the most rows.
const MOST: u64 = 1_000_000_000;
const ROWS: u64 = 4_000;

/// A row of the dearest book: other paper of currency 0, 36,000 days, coupon 0, long.
fn other(amount: u32) -> Bytes {
    sides(0, 3, 36_000, 0, amount, 0)
}

/// The entries of a call with more room than any book needs.
fn entries(rows: u64, most: u64) -> [u64; 5] {
    dearest(rows, most, &mut vec![0; 65_536]).entries()
}

/// Byte by byte: 36,000 is 0x8ca0, and 1,000,000,000 is 0x3b9aca00.
#[test]
fn two_rows_byte_by_byte() {
    let row = [
        0, 3, 0xa0, 0x8c, 0, 0, 0, 0, 0, 0xca, 0x9a, 0x3b, 0, 0, 0, 0,
    ];
    let book = [&[2, 0, 0, 0, 0, 0, 0, 0], &row[..], &row].concat();
    assert_eq!(dearest_book(2, MOST), Ok(book));
    assert_eq!(entries(2, MOST), [0, 0, 0, 40, 410_000_000_000_000]);
}

/// 8% and 12.5% of each thousand: 80 and 125 currency units, 205,000 mils.
#[test]
fn books_and_totals_by_hand() {
    for (rows, most, total) in [
        (0, 1, 0),
        (0, MOST, 0),
        (1, 1, 205_000),
        (1, 7, 1_435_000),
        (1, MOST, 205_000_000_000_000),
        (2, 1, 410_000),
        (3, 100, 61_500_000),
        (256, 65_536, 3_439_329_280_000),
        (3_999, MOST, 819_795_000_000_000_000),
        (ROWS, 1, 820_000_000),
        (ROWS, MOST, 820_000_000_000_000_000),
    ] {
        let length = 8 + 16 * rows;
        assert_eq!(
            entries(rows, most),
            [0, 0, 0, length, total],
            "{rows} {most}"
        );
        let book = interest(&vec![other(most as u32); rows as usize]);
        assert_eq!(dearest_book(rows, most), Ok(book));
    }
}

/// Catches a total that is not the book's, and a book that is refused.
#[test]
fn the_total_is_what_the_book_costs() {
    for (rows, most) in [(0, 5), (1, 5), (2, MOST), (40, 12_345), (ROWS, MOST)] {
        let book = dearest_book(rows, most).unwrap();
        assert_eq!(check(&book).number, 0);
        let report = charge(&book);
        assert_eq!(report.total, entries(rows, most)[4]);
        assert_eq!(report.total, 205_000 * rows * most);
        assert_eq!(report.taken, rows);
        assert_eq!(report.interest_specific, 80_000 * rows * most);
        assert_eq!(report.interest_general, 125_000 * rows * most);
    }
}

/// Catches a limit that is one off, and a number that is cut to fewer bits.
#[test]
fn limits_and_one_past_them() {
    let refused = [22, 0, 0, 0, 0];
    for rows in [
        4_001,
        4_096,
        65_535,
        65_536,
        1 << 32,
        (1 << 32) + 1,
        u64::MAX,
    ] {
        for most in [0, 1, MOST, MOST + 1] {
            assert_eq!(entries(rows, most), refused, "{rows} {most}");
            assert_eq!(dearest_book(rows, most).unwrap_err().number, 22);
        }
    }
    for most in [
        0,
        MOST + 1,
        u64::from(u32::MAX),
        1 << 32,
        (1 << 32) + 1,
        u64::MAX,
    ] {
        for rows in [0, 1, 2, 3_999, ROWS] {
            assert_eq!(entries(rows, most), refused, "{rows} {most}");
        }
    }
    for (rows, most) in [(0, 1), (0, MOST), (ROWS, 1), (ROWS, MOST)] {
        assert_eq!(entries(rows, most)[0], 0, "{rows} {most}");
    }
}

/// Terms of rows of all classes and kinds, dear and not: class, kind, days, coupon.
const TERMS: [(usize, u8, u16, u16); 15] = [
    (0, 3, 36_000, 0),
    (0, 3, 7_200, 299),
    (0, 3, 7_201, 300),
    (0, 3, 360, 0),
    (0, 3, 30, 0),
    (0, 2, 36_000, 0),
    (0, 1, 7_201, 299),
    (0, 4, 360, 36_000),
    (1, 1, 0, 0),
    (1, 2, 0, 0),
    (1, 3, 0, 0),
    (2, 0, 0, 0),
    (3, 0, 30, 0),
    (3, 0, 31, 0),
    (3, 0, 36_000, 0),
];

/// Rows of these terms, on both sides, in two groups, of two amounts.
fn rows() -> Vec<(usize, Bytes)> {
    let mut rows = Vec::new();
    for (class, kind, days, coupon) in TERMS {
        for (group, net) in [(0, 9), (0, -9), (31, 9), (31, -9), (0, -8), (31, 1)] {
            rows.push((class, row(group, kind, days, coupon, net)));
        }
    }
    rows
}

/// A book of some rows.
fn book_of(rows: &[(usize, Bytes)]) -> Vec<u8> {
    let own = |class: usize| rows.iter().filter(move |row| row.0 == class);
    let bodies = [0, 1, 2, 3].map(|class| own(class).map(|row| row.1).collect::<Vec<_>>());
    book(bodies.each_ref().map(|body| &body[..]))
}

/// All books of one and of two of these rows, and many of three, against the dearest of as many rows of
/// at most 9. Some cost as much.
#[test]
fn no_book_of_few_rows_is_dearer() {
    let rows = rows();
    let mut equal = [0; 4];
    let mut hold = |of: &[(usize, Bytes)]| {
        let report = charge(&book_of(of));
        assert_eq!(report.refusal.number, 0);
        let most = entries(of.len() as u64, 9)[4];
        assert!(report.total <= most, "{of:?}: {} over {most}", report.total);
        equal[of.len()] += usize::from(report.total == most);
    };
    for (at, one) in rows.iter().enumerate() {
        hold(&[*one]);
        for (next, two) in rows.iter().enumerate().skip(at) {
            hold(&[*one, *two]);
            let three = rows[(7 * at + 31 * next) % rows.len()];
            hold(&[*one, *two, three]);
        }
    }
    // The dearest row alone: either side in either group. Two: not on opposite sides of one group.
    assert_eq!(equal[1..3], [4, 8]);
}
