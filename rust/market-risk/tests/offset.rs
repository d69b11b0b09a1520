//! Offsetting over the linked library: books worked by hand, every refusal in its order, and every
//! byte of the output.

use market_risk::{charge, check, offset, offset_book, raw, Refusal, Table};

/// A row of currency 7, coupon 800: its kind, days and net, long above zero.
fn row(kind: u8, days: u16, net: i32) -> [u8; 16] {
    let mut row = [7, kind, 0, 0, 0x20, 3, 0, 0, 0, 0, 0, 0, 0, 0, 0, 0];
    row[2..4].copy_from_slice(&days.to_le_bytes());
    let at = if net > 0 { 8 } else { 12 };
    row[at..at + 4].copy_from_slice(&net.unsigned_abs().to_le_bytes());
    row
}

/// A leg.
fn leg(days: u16, net: i32) -> [u8; 16] {
    row(1, days, net)
}

/// The row with one byte changed.
fn with(mut row: [u8; 16], at: usize, byte: u8) -> [u8; 16] {
    row[at] = byte;
    row
}

/// A book of interest and equity rows.
fn book(interest: &[[u8; 16]], equity: &[[u8; 16]]) -> Vec<u8> {
    let counts = [interest.len(), equity.len(), 0, 0].map(|count| (count as u16).to_le_bytes());
    [&counts.concat(), &interest.concat()[..], &equity.concat()].concat()
}

/// The rows that are left of interest rows.
fn left(rows: &[[u8; 16]]) -> Vec<[u8; 16]> {
    let left = offset_book(&book(rows, &[])).unwrap();
    assert_eq!(check(&left), Ok(()));
    left[8..]
        .chunks(16)
        .map(|row| row.try_into().unwrap())
        .collect()
}

/// Whether two legs fit, in both orders.
fn fit(one: [u8; 16], other: [u8; 16]) -> bool {
    let rows = [left(&[one, other]), left(&[other, one])].map(|left| left.len());
    assert_eq!(rows, [rows[0]; 2]);
    rows[0] == 0
}

#[test]
fn every_limit_at_it_and_one_past_it() {
    let days = |near, far| fit(leg(near, 5), leg(far, -5));
    for (near, most) in [(0, 0), (29, 0), (30, 7), (360, 7), (361, 30), (35_969, 30)] {
        assert!(days(near, near + most), "{near}");
        assert!(!days(near, near + most + 1), "{near}");
    }
    let (one, other) = (leg(900, 5), leg(900, -5));
    // Coupons 0x0320 and 15, 16 and 256 more.
    assert!(fit(one, with(other, 4, 0x2f)));
    assert!(!fit(one, with(other, 4, 0x30)));
    assert!(!fit(one, with(other, 5, 4)));
    for (at, byte) in [(0, 8), (1, 2), (1, 3), (12, 6), (13, 1), (14, 1)] {
        assert!(!fit(one, with(other, at, byte)), "byte {at}");
    }
    assert!(!fit(one, one) && !fit(other, other));
    assert!(fit(with(one, 6, 9), other) && fit(with(one, 7, 9), with(other, 7, 9)));
    for kind in [2, 3] {
        assert!(!fit(row(kind, 900, 5), row(kind, 900, -5)), "{kind}");
    }
    assert!(!fit(row(4, 90, 5), row(4, 90, -5)));
}

/// The first later leg that is still there: not the last, not the nearest, and none twice.
#[test]
fn the_first_fit_is_taken() {
    let (one, far, near) = (leg(900, 5), leg(930, -5), leg(900, -5));
    assert_eq!(left(&[one, far, near]), [near]);
    assert_eq!(left(&[one, near, far]), [far]);
    assert_eq!(left(&[one, leg(910, 5), near]), [leg(910, 5)]);
    assert_eq!(left(&[one, near, leg(910, 5)]), [leg(910, 5)]);
    assert_eq!(left(&[one, far, leg(960, 5), leg(990, -5)]), [[0; 16]; 0]);
}

/// Other kinds and other classes stay as they are and in order.
#[test]
fn a_book_with_everything() {
    let others = [row(3, 900, 5), row(2, 900, -5), row(4, 90, 5), leg(60, 9)];
    let interest = [
        others[0],
        leg(900, 5),
        others[1],
        others[2],
        leg(905, -5),
        others[3],
    ];
    let share = |net| {
        let mut row = leg(0, net);
        row[4..6].fill(0);
        row
    };
    let equity = [share(5), share(-5), with(share(-5), 1, 3)];
    let whole = book(&interest, &equity);
    let expected = book(&others, &equity);
    assert_eq!(offset_book(&whole), Ok(expected.clone()));
    assert_eq!(offset_book(&expected), Ok(expected));
}

/// 4,000 legs that pair off, that are all on one side, and that alternate.
#[test]
fn full_books() {
    let halves = [vec![leg(900, 5); 2_000], vec![leg(910, -5); 2_000]].concat();
    assert_eq!(offset_book(&book(&halves, &[])), Ok(vec![0; 8]));
    let same = book(&[leg(900, 5); 4_000], &[]);
    assert_eq!(offset_book(&same), Ok(same.clone()));
    let turns: Vec<_> = (0..4_000)
        .map(|at| leg(900, if at % 2 == 0 { 5 } else { -5 }))
        .collect();
    assert_eq!(offset_book(&book(&turns, &[])), Ok(vec![0; 8]));
    assert_eq!(left(&turns[1..]), [turns[1]]);
    // Each amount once in each half: the second half the other way round.
    let amounts = (1..=2_000).map(|amount| leg(900, amount));
    let back = (1..=2_000).rev().map(|amount| leg(900, -amount));
    let rows: Vec<_> = amounts.chain(back).collect();
    assert_eq!(left(&rows), [[0; 16]; 0]);
}

/// Three legs in two orders: another one is left, and one charge rises where the other falls.
#[test]
fn the_order_matters_and_a_charge_may_rise() {
    let legs = [leg(360, 100), leg(367, -100), leg(370, 100)];
    let turned = [legs[2], legs[1], legs[0]];
    let costs = |rows: &[[u8; 16]]| {
        let book = book(rows, &[]);
        let [own, after] = [&book, &offset_book(&book).unwrap()]
            .map(|book| charge(book, &Table::amendment()).unwrap().total);
        [own, after]
    };
    assert_eq!(costs(&legs), [825_000, 1_250_000]);
    assert_eq!(costs(&turned), [825_000, 700_000]);
}

/// The number and row of a refused book.
fn refused(book: &[u8]) -> (u64, u64) {
    let Refusal { number, row, book } = offset_book(book).unwrap_err();
    assert_eq!(book, 0);
    (number, row)
}

/// A bad row comes first, wherever it stands; a short output last.
#[test]
fn refusals_keep_their_order() {
    let pair = [leg(900, 5), leg(910, -5)];
    let bad = with(leg(60, 1), 0, 32);
    assert_eq!(refused(&book(&[pair[0], pair[1], bad], &[])), (4, 2));
    assert_eq!(refused(&book(&[bad, pair[0], pair[1]], &[])), (4, 0));
    assert_eq!(refused(&book(&pair, &[with(bad, 1, 9)])), (4, 2));
    assert_eq!(refused(&book(&[pair[0], leg(36_001, -5)], &[])), (6, 1));
    assert_eq!(refused(&book(&[row(4, 361, 5), pair[0]], &[])), (15, 0));
    assert_eq!(refused(&book(&pair, &[])[..39]), (3, 0));
    assert_eq!(refused(&[]), (1, 0));
    assert_eq!(refused(&[255; 8]), (2, 0));
    let mut out = [9; 100];
    let refusal = offset(&book(&[pair[0], pair[1], bad], &[]), &mut out);
    assert_eq!(refusal.unwrap_err().number, 4);
    assert_eq!(out, [9; 100]);
    assert_eq!(offset(&book(&[bad], &[]), &mut []).unwrap_err().number, 4);
}

/// The output has the written book at its front and keeps all else, with room for it or without.
#[test]
fn every_byte_of_the_output() {
    let last = leg(60, 7);
    let whole = book(&[leg(900, 5), last, leg(910, -5)], &[]);
    let expected = book(&[last], &[]);
    for room in 24..60 {
        let mut out = vec![0xa5; room];
        assert_eq!(offset(&whole, &mut out), Ok(24));
        assert_eq!(out, [&expected[..], &vec![0xa5; room - 24]].concat());
    }
    for room in 0..24 {
        let (mut out, mut result) = (vec![0xa5; room], [u64::MAX; 4]);
        raw::offset(&whole, &mut out, &mut result);
        assert_eq!(result, [12, 0, 0, 0], "{room}");
        assert_eq!(out, vec![0xa5; room]);
    }
}
