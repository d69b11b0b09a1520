//! The dearest book, over the linked library: its rows and its total by hand, every limit and one past it,
//! every byte of the output, and that books which are nearly as dear are no dearer.

use market_risk::{charge, check, dearest, dearest_book, raw, Report, Table};

/// The greatest amount.
const MOST: usize = 1_000_000_000;

/// A row of 16 bytes with one signed amount: long above zero, short below.
fn row(group: u8, kind: u8, days: u16, coupon: u16, net: i32) -> [u8; 16] {
    let mut row = [0; 16];
    row[..2].copy_from_slice(&[group, kind]);
    row[2..4].copy_from_slice(&days.to_le_bytes());
    row[4..6].copy_from_slice(&coupon.to_le_bytes());
    let at = if net > 0 { 8 } else { 12 };
    row[at..at + 4].copy_from_slice(&net.unsigned_abs().to_le_bytes());
    row
}

/// A book of four bodies.
fn book(bodies: [&[[u8; 16]]; 4]) -> Vec<u8> {
    let counts = bodies.map(|body| (body.len() as u16).to_le_bytes());
    [counts.concat(), bodies.concat().concat()].concat()
}

/// The dearest book of so many rows of at most so much, by hand.
fn by_hand(rows: usize, most: usize) -> Vec<u8> {
    let other = row(0, 3, 36_000, 0, most as i32);
    book([&vec![other; rows], &[], &[], &[]])
}

/// The report of a book under document 01's table.
fn report(book: &[u8]) -> Report {
    charge(book, &Table::amendment()).unwrap()
}

/// Catches another book, a total that is not the book's, and one without specific or general risk.
#[test]
fn books_and_totals_by_hand() {
    for (rows, most, total) in [
        (0, 1, 0),
        (0, MOST, 0),
        (1, 1, 205_000),
        (1, MOST, 205_000_000_000_000),
        (2, 7, 2_870_000),
        (3, 65_536, 40_304_640_000),
        (257, 256, 13_487_360_000),
        (3_999, MOST, 819_795_000_000_000_000),
        (4_000, 1, 820_000_000),
        (4_000, MOST, 820_000_000_000_000_000),
    ] {
        let expected = by_hand(rows, most);
        assert_eq!(dearest_book(rows, most), Ok((expected.clone(), total)));
        assert_eq!(check(&expected), Ok(()));
        let report = report(&expected);
        assert_eq!((report.total, report.taken), (total, rows as u64));
        let units = (rows * most) as u64;
        let parts = [report.interest_specific, report.interest_general];
        assert_eq!(parts, [80_000 * units, 125_000 * units]);
    }
}

/// Catches a limit that is one off, and numbers that are cut to 32 bits, or to 16.
#[test]
fn limits_and_one_past_them() {
    let number = |rows, most| dearest_book(rows, most).map_or_else(|no| no.number, |_| 0);
    for most in [1, MOST] {
        assert_eq!([0, 3_999, 4_000].map(|rows| number(rows, most)), [0; 3]);
        let many = [4_001, 65_536, 69_536, 1 << 32, (1 << 32) + 1, usize::MAX];
        assert_eq!(many.map(|rows| number(rows, most)), [22; 6]);
    }
    for rows in [0, 1, 4_000, 4_001] {
        let none = [0, MOST + 1, 1 << 31, 1 << 32, (1 << 32) + 1, usize::MAX];
        assert_eq!(none.map(|most| number(rows, most)), [22; 6], "{rows}");
    }
}

/// The whole of a call into so many bytes.
fn called(rows: usize, most: usize, room: usize) -> ([u64; 5], Vec<u8>) {
    let (mut out, mut result) = (vec![0xa5; room], [u64::MAX; 5]);
    raw::dearest(rows, most, &mut out, &mut result);
    (result, out)
}

/// The output has the book at its front and keeps all else, with room for it or without, and 22 comes
/// before 12.
#[test]
fn every_byte_of_the_output() {
    let outputs = (0..60).chain([63_992, 64_007, 64_008, 64_009, 65_536]);
    for room in outputs {
        for rows in [0, 1, 2, 3_999, 4_000] {
            let book = by_hand(rows, 300);
            let (length, total) = (book.len() as u64, 61_500_000 * rows as u64);
            let expected = match room < book.len() {
                true => ([12, 0, 0, 0, 0], vec![0xa5; room]),
                false => {
                    let kept = vec![0xa5; room - book.len()];
                    ([0, 0, 0, length, total], [book, kept].concat())
                }
            };
            assert_eq!(called(rows, 300, room), expected, "{rows} {room}");
        }
        for (rows, most) in [(4_001, 1), (1, 0), (4_000, MOST + 1), (usize::MAX, 0)] {
            let expected = ([22, 0, 0, 0, 0], vec![0xa5; room]);
            assert_eq!(called(rows, most, room), expected, "{rows} {most} {room}");
        }
    }
}

/// Books of four rows of at most 100 that are as dear, and ones that are nearly so.
#[test]
fn no_book_of_as_many_rows_is_dearer() {
    let most = dearest(4, 100, &mut [0; 72]).unwrap();
    let (length, total) = (72, 82_000_000);
    assert_eq!((most.length, most.total), (length, total));
    let other = |group, days, coupon, net| row(group, 3, days, coupon, net);
    let dear = other(0, 36_000, 0, 100);
    let whole = |rows: &[[u8; 16]]| report(&book([rows, &[], &[], &[]])).total;
    // As dear: short, in several currencies, past 7,200 days, below 3%.
    assert_eq!(
        whole(&[0, 7, 30, 31].map(|g| other(g, 7_201, 299, -100))),
        total
    );
    let mixed = [
        dear,
        dear,
        other(1, 9_000, 9, -100),
        other(2, 7_201, 0, 100),
    ];
    assert_eq!(whole(&mixed), total);
    for (near, less) in [
        (other(0, 36_000, 0, 99), 205_000),
        (other(0, 7_200, 0, 100), 4_500_000),
        (other(0, 36_000, 300, 100), 6_500_000),
        (row(0, 2, 36_000, 0, 100), 6_400_000),
        (row(0, 1, 36_000, 0, 100), 8_000_000),
        // A note of a year to fixing: 1.6% and 0.7% in the place of 20.5%.
        (row(0, 4, 360, 36_000, 100), 18_200_000),
        // Opposite sides: 10% of 12.5% of 100 in the place of 12.5% of 200.
        (other(0, 36_000, 0, -100), 23_750_000),
    ] {
        assert_eq!(whole(&[dear, near, dear, dear]), total - less);
    }
    // A share costs 16%, gold 8%, a stock of a commodity 18.6%.
    let (share, gold) = (row(0, 1, 0, 0, 100), row(0, 0, 0, 0, 100));
    let mixed = book([&[dear], &[share], &[gold], &[gold]]);
    assert_eq!(
        report(&mixed).total,
        20_500_000 + 16_000_000 + 8_000_000 + 18_600_000
    );
}
