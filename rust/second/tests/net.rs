//! Netting one issue: books worked by hand, and wrong readings.

mod common;
use common::*;
use second::{check, net, netted, Refusal};

/// A row with an issue number.
fn of(issue: u16, mut row: Bytes) -> Bytes {
    row[6..8].copy_from_slice(&issue.to_le_bytes());
    row
}

/// A book of interest rows: bonds of 1,080 days, by issue number and net.
fn bonds(nets: &[(u16, i64)]) -> Vec<u8> {
    let rows: Vec<Bytes> = nets
        .iter()
        .map(|(i, net)| of(*i, bond(1080, *net)))
        .collect();
    interest(&rows)
}

/// The dealers' book: the same bond long 100 and short 40.
#[test]
fn the_same_bond_long_and_short() {
    let book = bonds(&[(5, 100), (5, -40)]);
    assert_eq!(netted(&book), Ok(bonds(&[(5, 60)])));
    // The short side is larger: the one row is short.
    let book = bonds(&[(5, 40), (5, -100)]);
    assert_eq!(netted(&book), Ok(bonds(&[(5, -60)])));
    // The same side twice: the amounts are added.
    let book = bonds(&[(5, 40), (5, 100)]);
    assert_eq!(netted(&book), Ok(bonds(&[(5, 140)])));
}

/// Catches a row in the place of the last of its issue, and an order that is not the file's.
#[test]
fn one_row_stands_in_the_place_of_the_first() {
    let book = bonds(&[(7, 1), (5, 100), (0, 3), (7, 2), (6, 9), (5, -40), (7, 4)]);
    let expected = bonds(&[(7, 7), (5, 60), (0, 3), (6, 9)]);
    assert_eq!(netted(&book), Ok(expected));
}

/// Catches a row of amount zero, which no book may have.
#[test]
fn an_issue_that_nets_to_zero_is_left_out() {
    let book = bonds(&[(5, 100), (6, 1), (5, -60), (5, -40)]);
    assert_eq!(netted(&book), Ok(bonds(&[(6, 1)])));
    assert_eq!(netted(&bonds(&[(5, 1), (5, -1)])), Ok(vec![0; 8]));
    assert_eq!(netted(&[0; 8]), Ok(vec![0; 8]));
}

/// Catches number 0 that is taken for an issue.
#[test]
fn rows_numbered_0_stay_as_they_are() {
    let book = bonds(&[(0, 100), (0, -100), (0, 100)]);
    assert_eq!(netted(&book), Ok(book));
    let unlike = interest(&[bond(1080, 100), bond(270, -100)]);
    assert_eq!(netted(&unlike), Ok(unlike));
}

/// Catches rows of two classes that become one: one number in each class, and each nets by
/// itself.
#[test]
fn one_number_in_two_classes_is_two_issues() {
    let row = |class: usize, net: i64| {
        let base = [
            row(1, 1, 100, 500, net),
            row(2, 2, 0, 0, net),
            row(3, 0, 0, 0, net),
        ];
        let last = row(4, 0, 400, 0, net);
        of(9, [base[0], base[1], base[2], last][class])
    };
    let whole = book([
        &[row(0, 5), row(0, -2)],
        &[row(1, 7), row(1, -7)],
        &[row(2, -1), row(2, -1)],
        &[row(3, 4)],
    ]);
    let expected = book([&[row(0, 3)], &[], &[row(2, -2)], &[row(3, 4)]]);
    assert_eq!(netted(&whole), Ok(expected));
}

/// Bytes 6-7 are one number: 256 and 1 are not the same, nor 1 and 257.
#[test]
fn numbers_have_two_bytes() {
    let book = bonds(&[(1, 5), (256, 5), (257, 5), (65_535, 5)]);
    assert_eq!(netted(&book), Ok(book));
    let pairs = bonds(&[(256, 5), (65_535, 5), (256, -4), (65_535, -3)]);
    assert_eq!(netted(&pairs), Ok(bonds(&[(256, 1), (65_535, 2)])));
}

/// The limit is of the net: on the way the sum may be more, on either side.
#[test]
fn a_running_sum_may_pass_the_limit_and_come_back() {
    let most = 1_000_000_000;
    let book = bonds(&[(5, most), (5, most), (5, -most)]);
    assert_eq!(netted(&book), Ok(bonds(&[(5, most)])));
    let book = bonds(&[(5, -most), (5, -1), (5, 1)]);
    assert_eq!(netted(&book), Ok(bonds(&[(5, -most)])));
    // 4 × 10^12 on the way, more than 32 bits, and back to nothing.
    let halves = [vec![(5, most); 2_000], vec![(5, -most); 2_000]].concat();
    assert_eq!(netted(&bonds(&halves)), Ok(vec![0; 8]));
    // 4,295,000,000 is 32,704 more than 2^32.
    let wraps = [vec![(5, most); 4], vec![(5, 295_000_000)]].concat();
    let refused = netted(&bonds(&wraps)).unwrap_err();
    assert_eq!((refused.number, refused.row), (14, 0));
}

/// E4 with both 900-day rows as one issue: joined and netted it costs 525,000, where the two
/// cost 210,000 each. The premise of two zones is of the rows before they are netted.
#[test]
fn e4_costs_more_netted() {
    let a = interest(&[bond(270, 75), of(5, bond(900, -30))]);
    let b = interest(&[of(5, bond(900, 30)), bond(6000, -10)]);
    let mut joined = vec![0; a.len() + b.len() - 8];
    assert!(second::join(&a, &b, &mut joined).refusal.accepted());
    let costs = |book: &[u8]| charge(&netted(book).unwrap()).total;
    assert_eq!(
        [costs(&a), costs(&b), costs(&joined)],
        [210_000, 210_000, 525_000]
    );
    assert_eq!(charge(&joined).total, 577_500);
}

/// The dealers' book is charged less: qualifying, 160 basis points of 60 and not of 140, and no
/// match in the band.
#[test]
fn netting_lowers_both_charges() {
    let row = |net| of(5, row(7, 2, 1080, 800, net));
    let book = interest(&[row(100), row(-40)]);
    let (before, after) = (charge(&book), charge(&netted(&book).unwrap()));
    assert_eq!(
        (before.interest_specific, after.interest_specific),
        (2_240_000, 960_000)
    );
    assert_eq!(
        (before.interest_general, after.interest_general),
        (1_120_000, 1_050_000)
    );
}

/// What is written is accepted, and netting it again changes nothing.
#[test]
fn a_netted_book_is_a_book_that_stays_as_it_is() {
    let nets: Vec<(u16, i64)> = (0..250u16)
        .map(|at| (at * at % 17, i64::from(at % 13) - 6))
        .filter(|(_, net)| *net != 0)
        .collect();
    let once = netted(&bonds(&nets)).unwrap();
    assert!(check(&once).accepted());
    assert_eq!(netted(&once), Ok(once));
}

/// Catches bytes past the netted book that are cleared, a refused call that writes, and a length
/// of the book's own that is asked for.
#[test]
fn the_output_keeps_what_is_not_written() {
    let book = bonds(&[(5, 100), (5, -40)]);
    let expected = bonds(&[(5, 60)]);
    for room in [24, 25, 40, 100] {
        let mut out = vec![0xa5; room];
        let done = net(&book, &mut out);
        assert_eq!(done.entries(), [0, 0, 0, 24, 1]);
        assert_eq!(out[..24], expected);
        assert!(out[24..].iter().all(|byte| *byte == 0xa5));
    }
    for room in [0, 7, 8, 23] {
        let mut out = vec![0xa5; room];
        assert_eq!(net(&book, &mut out).entries(), [12, 0, 0, 0, 0]);
        assert!(out.iter().all(|byte| *byte == 0xa5));
    }
    assert_eq!(net(&[0; 8], &mut [9; 7]).entries(), [12, 0, 0, 0, 0]);
    assert_eq!(net(&[0; 8], &mut [9; 8]).entries(), [0, 0, 0, 8, 0]);
    assert_eq!(net(&[], &mut []).refusal, Refusal::of(1));
}
