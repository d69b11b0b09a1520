//! Who the least trade refuses (document 02, P13): 10, then 18 and 19, then 21, then the book.

mod common;
use common::*;
use second::{charge_with, least_trade, Refusal};

/// Each book, and the number and row that it is refused with: contents, and a bad row of each sort behind
/// good ones, in the currency that is asked for, in others, and in other classes.
fn bad_books() -> Vec<(Vec<u8>, u64, u64)> {
    let bad_rows = [
        (4, row(32, 1, 60, 800, 1)),
        (5, row(7, 5, 60, 800, 1)),
        (6, row(7, 1, 36_001, 800, 1)),
        (7, row(7, 1, 60, 10_001, 1)),
        (8, sides(7, 1, 60, 800, 0, 0)),
        (9, row(7, 1, 60, 800, 1_000_000_001)),
        (15, row(7, 4, 361, 800, 1)),
        (15, row(6, 4, 90, 89, 1)),
    ];
    let of_row = |(number, bad)| (interest(&[bond(60, 1), bond(60, -2), bad]), number, 2);
    let other = [bad_rows[4].1];
    let contents = [
        (Vec::new(), 1, 0),
        (vec![0; 7], 1, 0),
        (file([4_001, 0, 0, 0], &[]), 2, 0),
        (file([1, 0, 0, 0], &[]), 3, 0),
        (book([&[clean(0)], &[clean(1)], &[clean(2)], &other]), 5, 3),
    ];
    contents.into_iter().chain(bad_rows.map(of_row)).collect()
}

/// Every book that is refused, and one that is not.
fn books() -> Vec<Vec<u8>> {
    let bad = bad_books().into_iter().map(|(book, ..)| book);
    bad.chain([interest(&[bond(60, 1)])]).collect()
}

/// Tables that are refused with 18, and with 19.
fn bad_tables() -> [(Vec<u8>, u64); 5] {
    let good = second::table().to_vec();
    let spoilt = |at: usize, byte: u8| {
        let mut table = good.clone();
        table[at] = byte;
        table
    };
    [
        (Vec::new(), 18),
        (good[..35].to_vec(), 18),
        ([&good[..], &[0]].concat(), 18),
        (spoilt(2, 41), 19),
        (spoilt(35, 101), 19),
    ]
}

/// Groups that there are not.
const GROUPS: [usize; 4] = [32, 33, 256, usize::MAX];

/// Bands and sides, one of which at least there is not.
const NOWHERE: [(usize, usize); 8] = [
    (15, 0),
    (16, 1),
    (256, 0),
    (usize::MAX, 1),
    (0, 2),
    (14, 256),
    (3, usize::MAX),
    (15, 2),
];

/// The call is refused with a number and a row whatever the limit, and nothing is found.
fn refused(
    (number, row): (u64, u64),
    book: &[u8],
    table: &[u8],
    group: usize,
    (band, side): (usize, usize),
) {
    for limit in [0, 1, u64::MAX] {
        let trade = least_trade(book, table, group, band, side, limit);
        assert_eq!(trade.entries(), [number, row, 0, 0, 0]);
    }
    let refusal = Refusal {
        number,
        row,
        book: 0,
    };
    let charge = charge_with(book, table, group, band, side, 1);
    assert_eq!(charge, Err(refusal));
}

/// Catches a group that is looked at after the table, the band, the side or the book.
#[test]
fn the_group_comes_first() {
    let good = (second::table().to_vec(), 0);
    for (table, _) in bad_tables().into_iter().chain([good]) {
        for (book, group) in books()
            .iter()
            .flat_map(|book| GROUPS.map(|group| (book, group)))
        {
            for place in NOWHERE.into_iter().chain([(3, 1)]) {
                refused((10, 0), book, &table, group, place);
            }
        }
    }
}

/// Catches a table that is looked at after the band, the side or the book.
#[test]
fn the_table_comes_second() {
    for (table, number) in bad_tables() {
        for book in books() {
            for place in NOWHERE.into_iter().chain([(3, 1)]) {
                refused((number, 0), &book, &table, 7, place);
            }
        }
    }
}

/// Catches a band or a side that is looked at after the book, or that is told with a row.
#[test]
fn band_and_side_come_third() {
    for (book, place) in books()
        .iter()
        .flat_map(|book| NOWHERE.map(|place| (book, place)))
    {
        for group in [0, 7, 31] {
            refused((21, 0), book, &second::table(), group, place);
        }
    }
}

/// Catches a book that is not looked at where the limit is met at once, and a row of another currency or
/// class that is passed over.
#[test]
fn the_book_comes_last() {
    for (book, number, row) in bad_books() {
        for (group, band, side) in [(0, 0, 0), (7, 3, 1), (31, 14, 1)] {
            refused((number, row), &book, &second::table(), group, (band, side));
        }
    }
}

/// The last group, band and side are taken.
#[test]
fn at_the_limits() {
    let long = row(31, 1, 36_000, 0, 2);
    let trade = least_trade(&interest(&[long]), &second::table(), 31, 14, 1, 25_000);
    assert_eq!(trade.entries(), [0, 0, 0, 1, 2]);
    let short = row(0, 1, 60, 800, -5);
    let trade = least_trade(&interest(&[short]), &second::table(), 0, 0, 0, 9_999);
    assert_eq!(trade.entries(), [0; 5]);
}
