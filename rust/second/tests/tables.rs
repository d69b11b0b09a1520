//! A loaded table (document 02, P10): its bytes, who refuses it and when.

mod common;
use common::*;
use second::{commodity_ladder, read_table, InterestLadder, Refusal, Report};

/// Document 01's table, byte by byte.
const AMENDMENT: [u8; 36] = [
    0, 0, 20, 0, 40, 0, 70, 0, 125, 0, 175, 0, 225, 0, 19, 1, 69, 1, 119, 1, 194, 1, 13, 2, 88, 2,
    32, 3, 226, 4, 10, 40, 30, 30, 40, 100,
];

/// A table that falls, one of which vertical is above zone 3's, and one that reaches 101.
fn broken() -> [[u8; 36]; 3] {
    [(2, 41), (33, 9), (35, 101)].map(|(at, byte)| {
        let mut table = AMENDMENT;
        table[at] = byte;
        table
    })
}

/// Books that are refused with 1, 2, 3 and 4.
fn bad_books() -> [Vec<u8>; 4] {
    [
        Vec::new(),
        file([4_001, 0, 0, 0], &[]),
        file([1, 0, 0, 0], &[]),
        interest(&[bond(60, 1), row(32, 1, 0, 0, 1)]),
    ]
}

/// The report of a refused call.
fn refused(number: u64) -> Report {
    Report {
        refusal: Refusal::of(number),
        ..Report::default()
    }
}

/// The ladder of a refused call.
fn refused_ladder(number: u64) -> InterestLadder {
    InterestLadder {
        refusal: Refusal::of(number),
        ..InterestLadder::default()
    }
}

#[test]
fn document_01_s_table_by_its_bytes() {
    assert_eq!(second::table(), AMENDMENT);
}

/// Catches a table that is read by its first 36 bytes, and a length that is asked to divide.
#[test]
fn every_length_but_36_is_18() {
    let long: Vec<u8> = AMENDMENT.iter().cycle().take(256).copied().collect();
    for length in (0..=256).filter(|length| *length != 36) {
        assert_eq!(read_table(&long[..length]), Err(Refusal::of(18)));
    }
    assert!(read_table(&long[..36]).is_ok());
    for length in [0, 35, 37, 72] {
        let book = interest(&[bond(60, 1)]);
        assert_eq!(second::charge(&book, &long[..length]), refused(18));
        let ladder = second::interest_ladder(&book, &long[..length], 7);
        assert_eq!(ladder, refused_ladder(18));
    }
}

/// Catches conditions that are looked at before the length.
#[test]
fn the_length_comes_before_the_conditions() {
    for table in broken() {
        assert_eq!(read_table(&table), Err(Refusal::of(19)));
        assert_eq!(read_table(&table[..35]), Err(Refusal::of(18)));
        let longer = [&table[..], &[0]].concat();
        assert_eq!(read_table(&longer), Err(Refusal::of(18)));
    }
    assert_eq!(read_table(&[255; 35]), Err(Refusal::of(18)));
    assert_eq!(read_table(&[255; 36]), Err(Refusal::of(19)));
}

/// Catches a book that is looked at before the table, and figures that are kept.
#[test]
fn a_table_is_refused_before_the_book() {
    let good = interest(&[bond(60, 1), bond(6000, -3)]);
    for book in bad_books().iter().chain([&good]) {
        for table in broken() {
            assert_eq!(second::charge(book, &table), refused(19));
            assert_eq!(second::charge(book, &table[..35]), refused(18));
            for group in [0, 7, 31] {
                let ladder = |table: &[u8]| second::interest_ladder(book, table, group);
                assert_eq!(ladder(&table), refused_ladder(19));
                assert_eq!(ladder(&table[..35]), refused_ladder(18));
            }
        }
    }
    for (book, number) in bad_books().iter().zip(1..) {
        assert_eq!(charge(book).refusal.number, number);
        assert_eq!(interest_ladder(book, 7).refusal.number, number);
    }
}

/// Catches a table that is looked at before the group.
#[test]
fn a_group_is_refused_before_the_table() {
    for group in [32, 33, 256, usize::MAX] {
        for table in [&AMENDMENT[..], &[], &[255; 36], &broken()[0]] {
            for book in bad_books().iter().chain([&vec![0; 8]]) {
                let ladder = second::interest_ladder(book, table, group);
                assert_eq!(ladder, refused_ladder(10));
            }
        }
    }
}

/// Catches a refusal of a row or of a book that carries no row under another table.
#[test]
fn a_bad_row_keeps_its_number_and_row() {
    let other = table([7; 15], [1, 2, 3, 4, 5, 6]);
    let expected = Refusal {
        number: 4,
        row: 1,
        book: 0,
    };
    let [.., book] = bad_books();
    assert_eq!(second::charge(&book, &other).refusal, expected);
    assert_eq!(second::interest_ladder(&book, &other, 7).refusal, expected);
    assert_eq!(commodity_ladder(&book, 7).refusal, expected);
}

/// Catches a high byte that comes first, or is left out: 0x0102 against 0x0201.
#[test]
fn weights_have_their_low_byte_first() {
    let mut bytes = [0; 36];
    for band in 0..15 {
        bytes[2 * band..2 * band + 2].copy_from_slice(&[1 + band as u8, 2]);
    }
    let expected = std::array::from_fn(|band| 513 + band as i128);
    assert_eq!(read_table(&bytes).unwrap().weights, expected);
}
