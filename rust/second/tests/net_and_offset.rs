//! Netting and then offsetting: the two sorts of docs/ORDER.md, worked by hand, and wrong readings.

mod common;
use common::*;
use second::{check, comparisons, net_and_offset, net_and_offset_book, netted, offset_book};

const MOST: i64 = 1_000_000_000;

/// Government rows of currency 7, coupon 800, by days, issue and net.
fn legs(legs: &[(u16, u16, i64)]) -> Vec<u8> {
    let row = |(days, issue, net): &(u16, u16, i64)| {
        let mut row = bond(*days, *net);
        row[6..8].copy_from_slice(&issue.to_le_bytes());
        row
    };
    interest(&legs.iter().map(row).collect::<Vec<Bytes>>())
}

/// What is left of such a book.
fn left(rows: &[(u16, u16, i64)]) -> Vec<u8> {
    net_and_offset_book(&legs(rows)).unwrap()
}

/// The totals of a book: as it is, netted and then offset, offset and then netted.
fn totals(book: &[u8]) -> [u64; 3] {
    let turned = netted(&offset_book(book).unwrap()).unwrap();
    let books = [book, &net_and_offset_book(book).unwrap(), &turned];
    books.map(|book| charge(book).total)
}

/// A fitting pair of which one row shares its issue number with a third row. Weighted at 1.75%, in
/// one band: 24,500 long and 17,500 short are 10% of 17,500 and 7,000 left; netted, 17,500 and
/// 10,500; without the pair 7,000 alone.
#[test]
fn a_pair_of_which_one_row_shares_its_issue() {
    let rows = [(900, 0, 100), (910, 7, -100), (910, 7, 40)];
    assert_eq!(left(&rows), legs(&[(900, 0, 100), (910, 7, -60)]));
    assert_eq!(totals(&legs(&rows)), [875_000, 805_000, 700_000]);
    assert_eq!(offset_book(&legs(&rows)), Ok(legs(&rows[2..])));
}

/// Two rows of one issue that only together equal a third: 17,500 against 17,500, and nothing.
#[test]
fn two_rows_that_only_together_equal_a_third() {
    let rows = [(900, 0, 100), (910, 7, -60), (910, 7, -40)];
    assert_eq!(left(&rows), [0; 8]);
    assert_eq!(totals(&legs(&rows)), [175_000, 0, 175_000]);
    assert_eq!(offset_book(&legs(&rows)), Ok(legs(&rows)));
}

/// Whatever the order of the three rows.
#[test]
fn the_two_sorts_in_every_order() {
    let orders = [
        [0, 1, 2],
        [0, 2, 1],
        [1, 0, 2],
        [1, 2, 0],
        [2, 0, 1],
        [2, 1, 0],
    ];
    for order in orders {
        let shared = order.map(|at| [(900, 0, 100), (910, 7, -100), (910, 7, 40)][at]);
        assert_eq!(totals(&legs(&shared)), [875_000, 805_000, 700_000]);
        let together = order.map(|at| [(900, 0, 100), (910, 7, -60), (910, 7, -40)][at]);
        assert_eq!(totals(&legs(&together)), [175_000, 0, 175_000]);
    }
}

/// Catches offsetting by amounts that rows had before they were netted, and rows of an issue that
/// nets to zero, or to the other side, in the place of its net.
#[test]
fn the_legs_are_the_netted_rows() {
    assert_eq!(left(&[(900, 0, 100), (910, 7, 20), (910, 7, -120)]), [0; 8]);
    let gone = [(900, 0, 100), (910, 7, -100), (910, 7, 100)];
    assert_eq!(left(&gone), legs(&gone[..1]));
    let both = [(900, 5, 60), (910, 7, -30), (900, 5, 40), (910, 7, -70)];
    assert_eq!(left(&both), [0; 8]);
    let most = [
        (910, 7, MOST),
        (910, 7, MOST),
        (900, 0, -MOST),
        (910, 7, -MOST),
    ];
    assert_eq!(left(&most), [0; 8]);
}

/// Catches a net that stands in another place than its first row's, where the first fit is another.
#[test]
fn a_net_stands_and_is_offered_in_the_place_of_its_first_row() {
    let rows = [(905, 7, -60), (900, 0, 100), (910, 0, -100), (905, 7, -40)];
    assert_eq!(left(&rows), legs(&rows[2..3]));
    let rows = [(900, 0, 100), (905, 7, -60), (910, 0, -100), (905, 7, -40)];
    assert_eq!(left(&rows), legs(&rows[2..3]));
    let rows = [(900, 0, 100), (910, 0, -100), (905, 7, -60), (905, 7, -40)];
    assert_eq!(left(&rows), legs(&[(905, 7, -100)]));
}

/// Catches issue numbers that legs need, or must have in common, to fit.
#[test]
fn fitting_does_not_look_at_issues() {
    for issues in [[0, 0], [0, 9], [9, 0], [8, 9], [1, 257]] {
        let [one, other] = issues;
        assert_eq!(left(&[(900, one, 5), (910, other, -5)]), [0; 8]);
    }
    // Two rows of one issue are netted, and no pair.
    assert_eq!(left(&[(900, 9, 5), (900, 9, -3)]), legs(&[(900, 9, 2)]));
}

/// Catches rows of other kinds and classes that are not netted, or that offset.
#[test]
fn other_rows_are_netted_and_stay() {
    let of = |issue: u8, mut row: Bytes| {
        row[6] = issue;
        row
    };
    let rows = [
        of(3, row(7, 2, 900, 800, 5)),
        of(7, bond(900, 3)),
        row(7, 2, 900, 800, -9),
        of(7, bond(900, 2)),
        of(3, row(7, 2, 900, 800, 4)),
        bond(910, -5),
    ];
    let shares = [
        of(7, row(7, 1, 0, 0, 5)),
        row(7, 1, 0, 0, -5),
        of(7, row(7, 1, 0, 0, 2)),
    ];
    let expected = book([
        &[of(3, row(7, 2, 900, 800, 9)), rows[2]],
        &[of(7, row(7, 1, 0, 0, 7)), shares[1]],
        &[],
        &[of(7, clean(3))],
    ]);
    let whole = book([&rows, &shares, &[], &[of(7, clean(3))]]);
    assert_eq!(net_and_offset_book(&whole), Ok(expected));
}

/// The comparisons are those of netting the book, whatever offsetting takes away after it.
#[test]
fn comparisons_are_those_of_the_book() {
    for (rows, made) in [
        (&[(900, 0, 5), (910, 0, -5)][..], 0),
        (&[(900, 1, 5), (910, 2, -5)], 1),
        (&[(900, 1, 5), (910, 2, -5), (900, 1, 5), (910, 2, -5)], 4),
        (&[(900, 1, 5), (900, 1, -5), (910, 2, -5)], 2),
    ] {
        let book = legs(rows);
        let done = net_and_offset(&book, &mut [9; 80]);
        assert_eq!(
            (done.refusal.number, done.comparisons),
            (0, made),
            "{rows:?}"
        );
        assert_eq!(comparisons(&book), made);
    }
}

/// Every book of up to five rows of two issues and none, on both sides: what is left is accepted,
/// is what offsetting leaves of the netted book, and stays as it is.
#[test]
fn what_is_left_is_accepted_and_stays() {
    let kinds = [
        (900, 0, 2),
        (900, 0, -2),
        (910, 7, -1),
        (910, 7, 3),
        (905, 8, 1),
    ];
    for length in 0..=5u32 {
        for mix in 0..5usize.pow(length) {
            let pick = |at: u32| kinds[mix / 5usize.pow(at) % 5];
            let book = legs(&(0..length).map(pick).collect::<Vec<_>>());
            let once = net_and_offset_book(&book).unwrap();
            assert!(check(&once).accepted());
            assert_eq!(net_and_offset_book(&once), Ok(once.clone()));
            // One net of issue 7, and one of issue 8: twos of opposite sides are all gone.
            let sides = once[8..]
                .chunks(16)
                .filter(|row| row[8] == 2 || row[12] == 2);
            let sides: Vec<bool> = sides.map(|row| row[8] == 2).collect();
            assert!(sides.windows(2).all(|two| two[0] == two[1]), "{once:?}");
        }
    }
}
