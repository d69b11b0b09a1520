//! Who a small bank's call refuses: 20 after the contents and before the rows, and these as in
//! check.

mod common;
use common::*;
use second::{check, small_bank, Refusal, SmallBank};

/// A refusal that leaves no figure.
fn refused(number: u64, row: u64) -> SmallBank {
    let refusal = Refusal {
        number,
        row,
        book: 0,
    };
    SmallBank {
        refusal,
        ..SmallBank::default()
    }
}

#[test]
fn contents_come_before_20() {
    assert_eq!(small_bank(&[1, 0, 1, 0, 0, 0, 0]), refused(1, 0));
    assert_eq!(small_bank(&file([4_000, 1, 0, 0], &[])), refused(2, 0));
    assert_eq!(small_bank(&file([1, 0, 0, 0], &[])), refused(3, 0));
    assert_eq!(small_bank(&file([0, 1, 1, 0], &[clean(1)])), refused(3, 0));
    for rows in [0, 2] {
        let wrong = file([1, 0, 0, 0], &vec![clean(0); rows]);
        assert_eq!(small_bank(&wrong), refused(3, 0));
    }
}

/// 20 for interest alone, equity alone and both, with and without other rows.
#[test]
fn interest_or_equity_rows_are_refused() {
    for (interest, equity) in [(1, 0), (0, 1), (1, 1), (3, 0), (0, 3)] {
        let (interest, equity) = (vec![clean(0); interest], vec![clean(1); equity]);
        for other in [0, 2] {
            let (fx, stock) = (vec![clean(2); other], vec![clean(3); other]);
            let book = book([&interest, &equity, &fx, &stock]);
            assert_eq!(check(&book), Refusal::NONE);
            assert_eq!(small_bank(&book), refused(20, 0));
        }
    }
    assert_eq!(
        small_bank(&interest(&vec![clean(0); 4_000])),
        refused(20, 0)
    );
    assert_eq!(small_bank(&equity(&vec![clean(1); 4_000])), refused(20, 0));
}

/// Rows of a class, one with each fault from 4 to 9.
fn faulty(class: usize) -> [(u64, Bytes); 6] {
    let kind = u8::from(class < 2);
    let coupon = if class == 0 { 10_001 } else { 1 };
    [
        (4, row(32, kind, 0, 0, 1)),
        (5, row(31, 9, 0, 0, 1)),
        (6, row(31, kind, 36_001, 0, 1)),
        (7, row(31, kind, 0, coupon, 1)),
        (8, sides(31, kind, 0, 0, 1, 1)),
        (9, row(31, kind, 0, 0, 1_000_000_001)),
    ]
}

/// Catches 20 that waits for the rows: any bad row of any class is after it.
#[test]
fn twenty_comes_before_a_bad_row_of_any_class() {
    for class in 0..4 {
        for (number, bad) in faulty(class) {
            let mut bodies: Vec<Vec<Bytes>> = (0..4).map(|class| vec![clean(class)]).collect();
            bodies[class].push(bad);
            let book = book([&bodies[0], &bodies[1], &bodies[2], &bodies[3]]);
            assert_eq!(check(&book).number, number);
            assert_eq!(small_bank(&book), refused(20, 0));
        }
    }
    // A note that fixes too late.
    let note = interest(&[row(1, 4, 361, 400, 1)]);
    assert_eq!(check(&note).number, 15);
    assert_eq!(small_bank(&note), refused(20, 0));
}

/// Every refusal of a row, first and last in either class; days are held to their limit though
/// no sum looks at them.
#[test]
fn rows_are_refused_as_in_check() {
    for class in [2, 3] {
        for (number, bad) in faulty(class) {
            for place in 0..2 {
                let mut bodies = [vec![clean(2); 2], vec![clean(3); 2]];
                bodies[class - 2][place] = bad;
                let book = book([&[], &[], &bodies[0], &bodies[1]]);
                let at = (2 * (class - 2) + place) as u64;
                assert_eq!(small_bank(&book), refused(number, at));
                assert_eq!(small_bank(&book).refusal, check(&book));
            }
        }
    }
    assert_eq!(small_bank(&commodity(&[(36_001, 1)])), refused(6, 0));
    let dated = book([&[], &[], &[row(1, 0, 1, 0, 1)], &[]]);
    assert_eq!(small_bank(&dated), refused(6, 0));
}

#[test]
fn the_first_bad_row_is_told() {
    let (late, early) = (row(32, 0, 0, 0, 1), sides(1, 0, 0, 0, 0, 0));
    let book = book([&[], &[], &[clean(2), early], &[late]]);
    assert_eq!(small_bank(&book), refused(8, 1));
}
