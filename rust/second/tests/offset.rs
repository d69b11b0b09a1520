//! Offsetting swap legs: chains, other rows and full books, worked by hand.

mod common;
use common::*;
use second::{check, offset_book};

/// A leg of currency 7 with a coupon.
fn leg(days: u16, coupon: u16, net: i64) -> Bytes {
    row(7, 1, days, coupon, net)
}

/// A row with an issue number.
fn of(issue: u16, mut row: Bytes) -> Bytes {
    row[6..8].copy_from_slice(&issue.to_le_bytes());
    row
}

/// The places of the legs that stay, of legs of coupon 800 by days and net.
fn staying(legs: &[(u16, i64)]) -> Vec<usize> {
    let numbered = legs.iter().zip(1..);
    let rows: Vec<Bytes> = numbered
        .map(|((days, net), issue)| of(issue, leg(*days, 800, *net)))
        .collect();
    let left = offset_book(&interest(&rows)).unwrap();
    left[8..]
        .chunks(16)
        .map(|row| usize::from(row[6]) - 1)
        .collect()
}

/// Catches the last or the nearest row that fits in the place of the first.
#[test]
fn the_first_later_row_that_fits_is_taken() {
    assert_eq!(staying(&[(900, 5), (930, -5), (900, -5)]), [2]);
    assert_eq!(
        staying(&[(900, 5), (931, -5), (930, -5), (900, -5)]),
        [1, 3]
    );
    assert_eq!(staying(&[(900, 5), (900, 6), (900, -6), (900, -5)]), [0; 0]);
}

/// Catches a later row that goes before an earlier one.
#[test]
fn of_two_rows_that_want_the_same_the_first_has_it() {
    assert_eq!(staying(&[(900, 5), (910, 5), (905, -5)]), [1]);
    assert_eq!(staying(&[(900, -5), (910, -5), (905, 5), (920, 5)]), [0; 0]);
    // The second row alone fits the third, and so has it.
    assert_eq!(staying(&[(800, 5), (910, 5), (905, -5)]), [0]);
}

/// Catches a row that is gone and is taken again, or takes another with it.
#[test]
fn a_row_that_is_gone_is_not_offered_again() {
    assert_eq!(staying(&[(900, 5), (900, -5), (900, 5)]), [2]);
    assert_eq!(staying(&[(900, 5), (900, 5), (900, -5)]), [1]);
    assert_eq!(staying(&[(900, 5), (930, -5), (960, 5), (990, -5)]), [0; 0]);
    assert_eq!(staying(&[(900, 5), (930, -5), (960, 5)]), [2]);
    let same: Vec<(u16, i64)> = (0..7)
        .map(|at| (900, if at < 3 { 5 } else { -5 }))
        .collect();
    assert_eq!(staying(&same), [6]);
}

/// The same three legs in two orders: another one stays, and the charge is another. Offsetting may
/// raise it: 7,000 in zone 1 and 12,500 against 12,500 in zone 2 cost 700,000 + 10% of 1,250,000,
/// and what is left of them 1,250,000.
#[test]
fn the_order_of_rows_changes_what_is_left_and_a_charge_may_rise() {
    let legs = [(360, 100), (367, -100), (370, 100)];
    let turned = [legs[2], legs[1], legs[0]];
    assert_eq!(staying(&legs), [2]);
    assert_eq!(staying(&turned), [2]);
    let book = |legs: [(u16, i64); 3]| interest(&legs.map(|(days, net)| leg(days, 800, net)));
    let costs = |book: &[u8]| charge(book).total;
    assert_eq!([costs(&book(legs)), costs(&book(turned))], [825_000; 2]);
    let after = [legs, turned].map(|legs| costs(&offset_book(&book(legs)).unwrap()));
    assert_eq!(after, [1_250_000, 700_000]);
}

/// Rows of other kinds and classes stay in their order, also where they would fit as legs.
#[test]
fn all_other_rows_stay_in_order() {
    let rows = [
        row(7, 3, 900, 800, 5),
        leg(900, 800, 5),
        row(7, 2, 900, 800, -5),
        row(7, 4, 90, 900, 5),
        leg(905, 800, -5),
        leg(905, 800, 9),
    ];
    let others = [1, 2, 3].map(|class| {
        let mut turned = clean(class);
        turned[8..].rotate_left(4);
        [of(3, clean(class)), turned, of(1, clean(class))]
    });
    let shares = [row(7, 1, 0, 0, 5), row(7, 1, 0, 0, -5)];
    let equity = [&others[0][..], &shares].concat();
    let whole = book([&rows, &equity, &others[1], &others[2]]);
    let left = [rows[0], rows[2], rows[3], rows[5]];
    let expected = book([&left, &equity, &others[1], &others[2]]);
    assert_eq!(offset_book(&whole), Ok(expected));
    let none = book([&[], &equity, &[], &others[2]]);
    assert_eq!(offset_book(&none), Ok(none));
}

/// Every book of up to six legs around a limit: what is written is accepted, no two of its rows
/// fit, and offsetting it again changes nothing.
#[test]
fn nothing_that_is_left_fits() {
    let kinds = [(360, 5), (367, -5), (368, -5), (391, 5)];
    for length in 0..=6u32 {
        for mix in 0..4usize.pow(length) {
            let pick = |at: u32| kinds[mix / 4usize.pow(at) % 4];
            let rows: Vec<Bytes> = (0..length)
                .map(|at| leg(pick(at).0, 800, pick(at).1))
                .collect();
            let once = offset_book(&interest(&rows)).unwrap();
            assert!(check(&once).accepted());
            assert_eq!(offset_book(&once), Ok(once.clone()));
            let left: Vec<Bytes> = once[8..]
                .chunks(16)
                .map(|row| row.try_into().unwrap())
                .collect();
            // By hand: only 360 and 368 of opposite sides do not fit.
            let days = |row: &Bytes| u16::from_le_bytes([row[2], row[3]]);
            let sides = |sum: i32, row: &Bytes| if row[8] > 0 { sum | 1 } else { sum | 2 };
            if left.iter().fold(0, sides) == 3 {
                let all: Vec<u16> = left.iter().map(days).collect();
                assert!(all.iter().all(|days| [360, 368].contains(days)), "{all:?}");
            }
        }
    }
}

/// 4,000 legs: all pair off with the other half, or none does.
#[test]
fn full_books() {
    let halves = [
        vec![leg(900, 800, 5); 2_000],
        vec![leg(910, 800, -5); 2_000],
    ]
    .concat();
    assert_eq!(offset_book(&interest(&halves)), Ok(vec![0; 8]));
    let same = interest(&vec![leg(900, 800, 5); 4_000]);
    assert_eq!(offset_book(&same), Ok(same.clone()));
    let odd = [
        vec![leg(900, 800, 5); 2_001],
        vec![leg(910, 800, -5); 1_999],
    ]
    .concat();
    assert_eq!(offset_book(&interest(&odd)), Ok(interest(&odd[..2])));
}
