//! Refusals of netting: 13 and 14, their rows and their order.

mod common;
use common::*;
use second::{net, netted, Refusal};

const MOST: i64 = 1_000_000_000;

/// A row with an issue number.
fn of(issue: u16, mut row: Bytes) -> Bytes {
    row[6..8].copy_from_slice(&issue.to_le_bytes());
    row
}

/// The number and the row of a book's refusal.
fn refused(book: &[u8]) -> (u64, u64) {
    let Refusal { number, row, book } = netted(book).unwrap_err();
    assert_eq!(book, 0);
    (number, row)
}

/// Catches a field that is not compared, in each class that may have another.
#[test]
fn every_field_of_an_issue_must_be_that_of_its_first_row() {
    let first = |class: usize| of(9, clean(class));
    let changed = |class: usize, place: usize| {
        let mut row = first(class);
        row[place] += 1;
        row
    };
    let cases = [
        (0, 0),
        (0, 1),
        (0, 2),
        (0, 3),
        (0, 4),
        (0, 5),
        (1, 0),
        (1, 1),
        (2, 0),
        (3, 0),
    ];
    for (class, place) in cases.into_iter().chain([(3, 2), (3, 3)]) {
        let mut bodies: [Vec<Bytes>; 4] = Default::default();
        bodies[class] = vec![
            first(class),
            first(class),
            changed(class, place),
            first(class),
        ];
        let book = book(bodies.each_ref().map(|body| &body[..]));
        assert_eq!(refused(&book), (13, 2), "class {class}, byte {place}");
        // Side and amount may differ, and so may all else of another number.
        bodies[class][2] = of(8, changed(class, place));
        bodies[class][3] = of(9, clean(class));
        bodies[class][3][8..].rotate_left(4);
        let book = common::book(bodies.each_ref().map(|body| &body[..]));
        assert!(netted(&book).is_ok(), "class {class}, byte {place}");
    }
}

/// Of a floating-rate note the final maturity is compared (P5), and a bond is not one.
#[test]
fn notes_of_one_issue_end_on_one_day() {
    let note = |fixing, maturity| of(9, row(7, 4, fixing, maturity, 5));
    assert!(netted(&interest(&[note(90, 2_880), note(90, 2_880)])).is_ok());
    assert_eq!(
        refused(&interest(&[note(90, 2_880), note(90, 2_881)])),
        (13, 1)
    );
    assert_eq!(
        refused(&interest(&[note(90, 2_880), note(91, 2_880)])),
        (13, 1)
    );
    let bond = of(9, row(7, 2, 90, 2_880, 5));
    assert_eq!(refused(&interest(&[note(90, 2_880), bond])), (13, 1));
}

/// Each row is compared with the first of its issue: what is like the one before it may still
/// differ. The row is counted through the file, and the first one in it is told.
#[test]
fn the_first_differing_row_of_the_file_is_told() {
    let (one, other) = (bond(1080, 5), bond(270, 5));
    let rows = [
        of(1, one),
        of(2, other),
        of(2, other),
        of(1, other),
        of(1, other),
    ];
    assert_eq!(refused(&interest(&rows)), (13, 3));
    // Issue 2 began later and differs earlier.
    let rows = [of(1, one), of(2, one), of(2, other), of(1, other)];
    assert_eq!(refused(&interest(&rows)), (13, 2));
    let shares = [of(3, row(1, 1, 0, 0, 5)), of(3, row(1, 2, 0, 0, 5))];
    let both = book([&rows[..2], &shares, &[], &[]]);
    assert_eq!(refused(&both), (13, 3));
}

/// Catches a limit that is of one side, or met one too early; and another row than the first.
#[test]
fn a_net_over_the_limit_is_told_at_its_first_row() {
    for side in [1, -1] {
        let rows = |nets: &[i64]| -> Vec<Bytes> {
            let bonds = nets.iter().map(|net| of(9, bond(1080, side * net)));
            [vec![bond(60, 1)], bonds.collect()].concat()
        };
        assert!(netted(&interest(&rows(&[MOST - 1, 1]))).is_ok());
        assert_eq!(refused(&interest(&rows(&[MOST, 1]))), (14, 1));
        assert_eq!(refused(&interest(&rows(&[1, MOST, MOST, -MOST]))), (14, 1));
    }
    // The earliest issue is told, not the one that passes the limit first.
    let (one, most) = (bond(1080, 1), bond(1080, MOST));
    let rows = [of(1, one), of(2, one), of(2, most), of(1, most)];
    assert_eq!(refused(&interest(&rows)), (14, 0));
    let shares = [of(1, row(1, 1, 0, 0, MOST)), of(1, row(1, 1, 0, 0, MOST))];
    assert_eq!(refused(&book([&rows[..2], &shares, &[], &[]])), (14, 2));
}

/// All of 13 before any 14, over the whole file.
#[test]
fn thirteen_comes_before_an_earlier_fourteen() {
    let most = of(1, bond(1080, MOST));
    let shares = [of(2, row(1, 1, 0, 0, 5)), of(2, row(1, 3, 0, 0, 5))];
    let whole = book([&[most, most], &shares, &[], &[]]);
    assert_eq!(refused(&whole), (13, 3));
    assert_eq!(
        refused(&book([&[most, most], &shares[..1], &[], &[]])),
        (14, 0)
    );
    // Within one issue too.
    assert_eq!(
        refused(&interest(&[most, most, of(1, bond(270, 1))])),
        (13, 2)
    );
}

/// Both come when every row has passed, and 12 after them.
#[test]
fn the_book_comes_before_and_the_output_after() {
    let (one, other) = (of(1, bond(1080, 5)), of(1, bond(270, 5)));
    let most = of(2, bond(1080, MOST));
    let bad = [
        bond(36_001, 5),
        row(32, 1, 60, 800, 5),
        sides(7, 1, 60, 800, 5, 5),
    ];
    for (bad, number) in bad.into_iter().zip([6, 4, 8]) {
        assert_eq!(
            refused(&interest(&[one, other, most, most, bad])),
            (number, 4)
        );
    }
    let late = row(7, 4, 361, 400, 5);
    assert_eq!(refused(&interest(&[one, other, late])), (15, 2));
    let whole = interest(&[one, other]);
    assert_eq!(refused(&whole[..39]), (3, 0));
    assert_eq!(refused(&whole[..7]), (1, 0));
    assert_eq!(refused(&[255; 8]), (2, 0));
    for room in [0, 7, 24, 40] {
        let mut out = vec![0xa5; room];
        assert_eq!(net(&whole, &mut out).entries(), [13, 1, 0, 0, 0]);
        assert_eq!(
            net(&interest(&[most, most]), &mut out).entries(),
            [14, 0, 0, 0, 0]
        );
        assert_eq!(
            net(&interest(&[bad[0]]), &mut out).entries(),
            [6, 0, 0, 0, 0]
        );
        assert!(out.iter().all(|byte| *byte == 0xa5));
    }
}
