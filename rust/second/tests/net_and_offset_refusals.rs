//! Refusals of netting and then offsetting: the book's own, then 13 and 14 over all its rows, then 12
//! of what is written; and every byte of the output.

mod common;
use common::*;
use second::{net_and_offset, net_and_offset_book, netted, offset_book, Refusal};

const MOST: i64 = 1_000_000_000;

/// A government row of currency 7 with an issue number.
fn of(issue: u8, days: u16, net: i64) -> Bytes {
    let mut row = bond(days, net);
    row[6] = issue;
    row
}

/// The number and the row of a book's refusal.
fn refused(book: &[u8]) -> (u64, u64) {
    let Refusal { number, row, book } = net_and_offset_book(book).unwrap_err();
    assert_eq!(book, 0);
    (number, row)
}

/// Catches offsetting that comes first: a row that is unlike its issue, or makes its net too large,
/// would be gone.
#[test]
fn issues_are_refused_though_a_row_of_them_fits() {
    let hidden = [
        ([of(7, 900, 5), bond(910, -5), of(7, 905, 4)], (13, 2)),
        ([bond(900, 5), of(7, 910, -5), of(7, 911, 4)], (13, 2)),
        (
            [of(7, 900, MOST), of(7, 900, MOST), bond(910, -MOST)],
            (14, 0),
        ),
        ([bond(910, -MOST), of(7, 900, MOST), of(7, 900, 1)], (14, 1)),
    ];
    for (rows, told) in hidden {
        let whole = interest(&rows);
        assert_eq!(refused(&whole), told);
        assert_eq!(netted(&whole).unwrap_err().number, told.0);
        assert!(netted(&offset_book(&whole).unwrap()).is_ok());
    }
    // Two legs of one issue that fit each other are unlike.
    assert_eq!(
        refused(&interest(&[of(7, 900, 5), of(7, 910, -5)])),
        (13, 1)
    );
}

/// All of 13 before any 14, and a bad row before both, wherever they stand.
#[test]
fn refusals_keep_their_order() {
    let most = [of(1, 900, MOST), of(1, 900, MOST)];
    let unlike = [of(2, 60, 5), of(2, 61, 5)];
    let both = interest(&[&most[..], &unlike].concat());
    assert_eq!(refused(&both), (13, 3));
    let bad = [
        (4, row(32, 1, 900, 800, 5)),
        (5, row(7, 0, 900, 800, 5)),
        (6, bond(36_001, 5)),
        (7, row(7, 1, 900, 10_001, 5)),
        (8, sides(7, 1, 900, 800, 5, 5)),
        (9, bond(900, 1_000_000_001)),
        (15, row(7, 4, 361, 900, 5)),
    ];
    for (number, bad) in bad {
        let rows = [&most[..], &unlike, &[bad]].concat();
        assert_eq!(refused(&interest(&rows)), (number, 4));
    }
    assert_eq!(refused(&both[..7]), (1, 0));
    assert_eq!(refused(&[255; 8]), (2, 0));
    assert_eq!(refused(&both[..71]), (3, 0));
}

/// 12 comes last and is of the book that is written: an output may be too short for the netted book.
/// Bytes past what is written keep their values, of the netted book nothing is left.
#[test]
fn the_output_is_as_long_as_what_is_left() {
    let last = bond(60, 7);
    let whole = interest(&[bond(900, 100), of(7, 910, -60), last, of(7, 910, -40)]);
    let expected = interest(&[last]);
    assert_eq!(netted(&whole).unwrap().len(), 56);
    for room in [24, 25, 40, 55, 56, 57, 72, 100] {
        let mut out = vec![0xa5; room];
        let entries = net_and_offset(&whole, &mut out).entries();
        assert_eq!(entries, [0, 0, 0, 24, 1], "{room}");
        assert_eq!(out, [&expected[..], &vec![0xa5; room - 24]].concat());
    }
    for room in [0, 7, 8, 23] {
        let mut out = vec![0xa5; room];
        let entries = net_and_offset(&whole, &mut out).entries();
        assert_eq!(entries, [12, 0, 0, 0, 0], "{room}");
        assert_eq!(out, vec![0xa5; room]);
    }
    let pair = interest(&[bond(900, 5), bond(910, -5)]);
    assert_eq!(
        net_and_offset(&pair, &mut [9; 7]).entries(),
        [12, 0, 0, 0, 0]
    );
    assert_eq!(
        net_and_offset(&pair, &mut [9; 8]).entries(),
        [0, 0, 0, 8, 0]
    );
    assert_eq!(net_and_offset(&[], &mut []).refusal, Refusal::of(1));
}

/// Catches 12 before a refusal of the issues, and figures or bytes that a refusal leaves.
#[test]
fn without_room_the_issues_are_told_first() {
    let unlike = interest(&[of(2, 60, 5), of(2, 61, 5)]);
    let most = interest(&[of(1, 900, MOST), of(1, 900, MOST)]);
    for room in [0, 8, 24, 40, 100] {
        let mut out = vec![0xa5; room];
        let entries = |book: &[u8], out: &mut [u8]| net_and_offset(book, out).entries();
        assert_eq!(entries(&unlike, &mut out), [13, 1, 0, 0, 0]);
        assert_eq!(entries(&most, &mut out), [14, 0, 0, 0, 0]);
        assert_eq!(
            entries(&interest(&[bond(36_001, 5)]), &mut out),
            [6, 0, 0, 0, 0]
        );
        assert_eq!(out, vec![0xa5; room]);
    }
}
