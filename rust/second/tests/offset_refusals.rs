//! Refusals of offsetting: the book's own in their order, then 12, and every byte of the output.

mod common;
use common::*;
use second::{offset, offset_book, Refusal};

/// Two legs that offset each other, and one that no other fits.
fn legs() -> [Bytes; 3] {
    [bond(900, 5), bond(910, -5), bond(60, 7)]
}

/// The number and the row of a book's refusal.
fn refused(book: &[u8]) -> (u64, u64) {
    let Refusal { number, row, book } = offset_book(book).unwrap_err();
    assert_eq!(book, 0);
    (number, row)
}

/// Catches legs that are offset before all rows are looked at, and rows counted without them.
#[test]
fn a_bad_row_is_told_wherever_it_stands() {
    let [one, other, _] = legs();
    let bad = [
        (4, row(32, 1, 900, 800, 5)),
        (5, row(7, 0, 900, 800, 5)),
        (6, bond(36_001, 5)),
        (7, row(7, 1, 900, 10_001, 5)),
        (8, sides(7, 1, 900, 800, 5, 5)),
        (9, bond(900, 1_000_000_001)),
        (15, row(7, 4, 361, 900, 5)),
    ];
    for (number, bad) in bad {
        assert_eq!(refused(&interest(&[bad, one, other])), (number, 0));
        assert_eq!(refused(&interest(&[one, bad, other])), (number, 1));
        assert_eq!(refused(&interest(&[one, other, bad])), (number, 2));
        assert_eq!(
            refused(&interest(&[one, other, bad, bond(36_001, 5)])),
            (number, 2)
        );
    }
    for class in 1..4 {
        let mut bad = clean(class);
        bad[0] = 32;
        let mut bodies: [Vec<Bytes>; 4] = Default::default();
        bodies[0] = vec![one, other];
        bodies[class] = vec![clean(class), bad];
        assert_eq!(
            refused(&book(bodies.each_ref().map(|body| &body[..]))),
            (4, 3)
        );
    }
}

#[test]
fn the_contents_come_first() {
    let [one, other, _] = legs();
    let whole = interest(&[one, other, bond(36_001, 5)]);
    assert_eq!(refused(&whole[..7]), (1, 0));
    assert_eq!(refused(&[]), (1, 0));
    assert_eq!(refused(&[255; 8]), (2, 0));
    assert_eq!(refused(&whole[..whole.len() - 1]), (3, 0));
}

/// 12 comes last, and is of the book that is written, not of the one that is given.
#[test]
fn the_output_is_as_long_as_what_is_left() {
    let whole = interest(&legs());
    let expected = interest(&legs()[2..]);
    for room in [24, 25, 40, 56, 100] {
        let mut out = vec![0xa5; room];
        assert_eq!(offset(&whole, &mut out).entries(), [0, 0, 0, 24]);
        assert_eq!(out[..24], expected);
        assert!(out[24..].iter().all(|byte| *byte == 0xa5));
    }
    for room in [0, 7, 8, 23] {
        let mut out = vec![0xa5; room];
        assert_eq!(offset(&whole, &mut out).entries(), [12, 0, 0, 0]);
        let bad = interest(&[&legs()[..], &[bond(36_001, 5)]].concat());
        assert_eq!(offset(&bad, &mut out).entries(), [6, 3, 0, 0]);
        assert_eq!(offset(&whole[..9], &mut out).entries(), [3, 0, 0, 0]);
        assert!(out.iter().all(|byte| *byte == 0xa5));
    }
    let pair = interest(&legs()[..2]);
    assert_eq!(offset(&pair, &mut [9; 7]).entries(), [12, 0, 0, 0]);
    assert_eq!(offset(&pair, &mut [9; 8]).entries(), [0, 0, 0, 8]);
    assert_eq!(offset(&[0; 8], &mut [9; 8]).entries(), [0, 0, 0, 8]);
    assert_eq!(offset(&[], &mut []).refusal, Refusal::of(1));
}
