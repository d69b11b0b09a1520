//! Netting and offsetting in one call over the linked library: books worked by hand, the two calls
//! one after the other, every refusal in its order, and every byte of the output.

use market_risk::{charge, check, net_and_offset, net_and_offset_book, netted, offset_book};
use market_risk::{raw, Refusal, Table};

const MOST: i32 = 1_000_000_000;

/// A government row of currency 7, coupon 800, by days, issue and net.
fn leg((days, issue, net): (u16, u16, i32)) -> [u8; 16] {
    let mut row = [7, 1, 0, 0, 0x20, 3, 0, 0, 0, 0, 0, 0, 0, 0, 0, 0];
    row[2..4].copy_from_slice(&days.to_le_bytes());
    row[6..8].copy_from_slice(&issue.to_le_bytes());
    let at = if net > 0 { 8 } else { 12 };
    row[at..at + 4].copy_from_slice(&net.unsigned_abs().to_le_bytes());
    row
}

/// A book of interest rows.
fn book(rows: &[[u8; 16]]) -> Vec<u8> {
    let count = (rows.len() as u16).to_le_bytes();
    [&count[..], &[0; 6], &rows.concat()].concat()
}

/// A book of legs.
fn legs(legs: &[(u16, u16, i32)]) -> Vec<u8> {
    book(&legs.iter().copied().map(leg).collect::<Vec<_>>())
}

/// What is left of a book of legs, which is also what the two calls leave in turn.
fn left(rows: &[(u16, u16, i32)]) -> Vec<u8> {
    let whole = legs(rows);
    let once = net_and_offset_book(&whole).unwrap();
    assert_eq!(offset_book(&netted(&whole).unwrap()), Ok(once.clone()));
    assert_eq!(check(&once), Ok(()));
    assert_eq!(net_and_offset_book(&once), Ok(once.clone()));
    once
}

/// The two sorts of docs/ORDER.md, with their totals as they are, issues first, offsetting first.
#[test]
fn the_two_sorts_and_their_totals() {
    let shared = [(900, 0, 100), (910, 7, -100), (910, 7, 40)];
    let together = [(900, 0, 100), (910, 7, -60), (910, 7, -40)];
    assert_eq!(left(&shared), legs(&[(900, 0, 100), (910, 7, -60)]));
    assert_eq!(left(&together), [0; 8]);
    let totals = |rows: &[(u16, u16, i32)]| {
        let whole = legs(rows);
        let turned = netted(&offset_book(&whole).unwrap()).unwrap();
        let once = net_and_offset_book(&whole).unwrap();
        [&whole, &once, &turned].map(|book| charge(book, &Table::amendment()).unwrap().total)
    };
    assert_eq!(totals(&shared), [875_000, 805_000, 700_000]);
    assert_eq!(totals(&together), [175_000, 0, 175_000]);
}

/// Nets on the other side, of zero, of both legs, at the limit and back from past it; the place of
/// the first row; numbers that are not looked at.
#[test]
fn the_legs_are_the_netted_rows() {
    assert_eq!(left(&[(900, 0, 100), (910, 7, 20), (910, 7, -120)]), [0; 8]);
    let gone = [(900, 0, 100), (910, 7, -100), (910, 7, 100)];
    assert_eq!(left(&gone), legs(&gone[..1]));
    assert_eq!(
        left(&[(900, 5, 60), (910, 7, -30), (900, 5, 40), (910, 7, -70)]),
        [0; 8]
    );
    let most = [
        (910, 7, MOST),
        (910, 7, MOST),
        (900, 0, -MOST),
        (910, 7, -MOST),
    ];
    assert_eq!(left(&most), [0; 8]);
    let place = [(905, 7, -60), (900, 0, 100), (910, 0, -100), (905, 7, -40)];
    assert_eq!(left(&place), legs(&place[2..3]));
    assert_eq!(left(&[(900, 8, 5), (910, 264, -5)]), [0; 8]);
    assert_eq!(left(&[(900, 9, 5), (900, 9, -3)]), legs(&[(900, 9, 2)]));
}

/// 4,000 rows: two issues that are a pair, and as many issues as rows, each half the other's pairs.
#[test]
fn full_books() {
    let two: Vec<_> = (0..4_000)
        .map(|at| (900, 1 + at % 2, [3, -3][usize::from(at % 2)]))
        .collect();
    let all: Vec<_> = (0..4_000)
        .map(|at| (900, 1 + at, [3, -3][usize::from(at / 2_000)]))
        .collect();
    for (rows, comparisons) in [(two, 1 + 1_999 + 1_999 * 2), (all, 7_998_000)] {
        let mut out = [9; 9];
        let done = net_and_offset(&legs(&rows), &mut out).unwrap();
        assert_eq!((done.length, done.comparisons), (8, comparisons));
        assert_eq!(out, [0, 0, 0, 0, 0, 0, 0, 0, 9]);
    }
    let apart: Vec<_> = (0..4_000).map(|at| (900, 1 + at, 3)).collect();
    assert_eq!(left(&apart), legs(&apart));
}

/// The number and row of a refused book.
fn refused(book: &[u8]) -> (u64, u64) {
    let Refusal { number, row, book } = net_and_offset_book(book).unwrap_err();
    assert_eq!(book, 0);
    (number, row)
}

/// A bad row comes first, wherever it stands; then 13, then 14, though offsetting would hide them.
#[test]
fn refusals_keep_their_order() {
    let thirteen = [(900, 7, 5), (910, 0, -5), (905, 7, 4)];
    let fourteen = [(900, 8, MOST), (900, 8, MOST), (910, 0, -MOST)];
    assert_eq!(refused(&legs(&thirteen)), (13, 2));
    assert_eq!(refused(&legs(&fourteen)), (14, 0));
    let both = [fourteen, thirteen].concat();
    assert_eq!(refused(&legs(&both)), (13, 5));
    let bad = [&both[..], &[(36_001, 0, 5)]].concat();
    assert_eq!(refused(&legs(&bad)), (6, 6));
    assert_eq!(refused(&legs(&bad)[..23]), (3, 0));
    assert_eq!(refused(&[]), (1, 0));
    assert_eq!(refused(&[255; 8]), (2, 0));
    for room in [0, 8, 40, 200] {
        let mut out = vec![0xa5; room];
        for (rows, number) in [(&thirteen[..], 13), (&fourteen, 14), (&bad, 6)] {
            let told = net_and_offset(&legs(rows), &mut out).unwrap_err();
            assert_eq!(told.number, number, "{room}");
        }
        assert_eq!(out, vec![0xa5; room]);
    }
}

/// 12 goes by what is written: the netted book of three rows need not have room. Nothing of it is
/// left past the one row that is written.
#[test]
fn every_byte_of_the_output() {
    let whole = legs(&[(900, 0, 100), (910, 7, -60), (60, 0, 7), (910, 7, -40)]);
    let expected = legs(&[(60, 0, 7)]);
    for room in 0..80 {
        let (mut out, mut result) = (vec![0xa5; room], [u64::MAX; 5]);
        raw::net_and_offset(&whole, &mut out, &mut result);
        match room {
            ..=23 => {
                assert_eq!(result, [12, 0, 0, 0, 0], "{room}");
                assert_eq!(out, vec![0xa5; room]);
            }
            _ => {
                assert_eq!(result, [0, 0, 0, 24, 1], "{room}");
                assert_eq!(out, [&expected[..], &vec![0xa5; room - 24]].concat());
            }
        }
    }
}
