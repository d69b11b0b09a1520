//! Netting over the linked library: books worked by hand, every refusal in its order, and every
//! byte of the output.

use market_risk::{charge, check, join, joined, net, netted, Refusal, Table};

const MOST: u32 = 1_000_000_000;

/// A government row of currency 7 at 1,080 days, coupon 800: its issue, long and short.
fn bond(issue: u16, long: u32, short: u32) -> [u8; 16] {
    let mut row = [7, 1, 0x38, 4, 0x20, 3, 0, 0, 0, 0, 0, 0, 0, 0, 0, 0];
    row[6..8].copy_from_slice(&issue.to_le_bytes());
    row[8..12].copy_from_slice(&long.to_le_bytes());
    row[12..].copy_from_slice(&short.to_le_bytes());
    row
}

/// The same as a share of market 7.
fn share(issue: u16, long: u32, short: u32) -> [u8; 16] {
    let mut row = bond(issue, long, short);
    row[2..6].fill(0);
    row
}

/// A book of interest and equity rows.
fn book(interest: &[[u8; 16]], equity: &[[u8; 16]]) -> Vec<u8> {
    let counts = [interest.len(), equity.len(), 0, 0].map(|count| (count as u16).to_le_bytes());
    [&counts.concat(), &interest.concat()[..], &equity.concat()].concat()
}

/// The number and row of a refused book.
fn refused(book: &[u8]) -> (u64, u64) {
    let Refusal { number, row, book } = netted(book).unwrap_err();
    assert_eq!(book, 0);
    (number, row)
}

/// Place of the first, issue 0 apart, each class by itself, zero nets left out.
#[test]
fn a_book_with_everything() {
    let whole = book(
        &[
            bond(5, 100, 0),
            bond(0, 3, 0),
            bond(9, 0, 8),
            bond(0, 0, 3),
            bond(5, 0, 40),
        ],
        &[
            share(5, 1, 0),
            share(9, 8, 0),
            share(5, 0, 2),
            share(9, 0, 8),
        ],
    );
    let expected = book(
        &[bond(5, 60, 0), bond(0, 3, 0), bond(9, 0, 8), bond(0, 0, 3)],
        &[share(5, 0, 1)],
    );
    assert_eq!(netted(&whole), Ok(expected.clone()));
    assert_eq!(check(&expected), Ok(()));
    assert_eq!(netted(&expected), Ok(expected));
}

/// 4,000 rows: of one issue, which come back from 2 × 10^12; of as many issues as rows; in pairs.
#[test]
fn full_books() {
    let halves = [vec![bond(5, MOST, 0); 2_000], vec![bond(5, 0, MOST); 2_000]].concat();
    assert_eq!(netted(&book(&halves, &[])), Ok(vec![0; 8]));
    let all: Vec<_> = (1..=4_000).map(|issue| bond(issue, 1, 0)).collect();
    let whole = book(&all, &[]);
    assert_eq!(netted(&whole), Ok(whole.clone()));
    let pairs: Vec<_> = (0..4_000).map(|at| bond(1 + at % 2_000, 1, 0)).collect();
    let expected: Vec<_> = (1..=2_000).map(|issue| bond(issue, 2, 0)).collect();
    assert_eq!(netted(&book(&pairs, &[])), Ok(book(&expected, &[])));
}

#[test]
fn the_row_that_differs_is_told_before_any_net() {
    let other = |at: usize| {
        let mut row = bond(1, 1, 0);
        row[at] += 1;
        row
    };
    for at in 0..6 {
        let whole = book(&[bond(1, MOST, 0), bond(1, MOST, 0), other(at)], &[]);
        assert_eq!(refused(&whole), (13, 2), "byte {at}");
        let words = "group, kind, days or coupon not those of the first row of its issue";
        let told = netted(&whole).unwrap_err().to_string();
        assert_eq!(told, format!("refused 13 row 2: {words}"));
    }
    let mut late = share(2, 1, 0);
    late[1] = 3;
    let over = [bond(1, MOST, 0), bond(1, 1, 0)];
    assert_eq!(refused(&book(&over, &[share(2, 1, 0), late])), (13, 3));
    assert_eq!(refused(&book(&over, &[share(2, 1, 0)])), (14, 0));
    assert_eq!(
        refused(&book(
            &[bond(0, 1, 0)],
            &[share(2, 0, MOST), share(2, 0, 1)]
        )),
        (14, 1)
    );
    let back = [bond(1, MOST, 0), bond(1, MOST, 0), bond(1, 0, MOST)];
    assert_eq!(
        netted(&book(&back, &[])),
        Ok(book(&[bond(1, MOST, 0)], &[]))
    );
    assert_eq!(
        netted(&book(&over, &[])).unwrap_err().to_string(),
        "refused 14 row 0: the net of its issue is over 1,000,000,000"
    );
}

/// A bad row comes first, wherever it stands; a short output last.
#[test]
fn other_refusals_keep_their_order() {
    let mut unlike = bond(1, 1, 0);
    unlike[0] = 8;
    let mut bad = share(0, 1, 0);
    bad[0] = 32;
    let rows = [bond(1, 1, 0), unlike];
    assert_eq!(refused(&book(&rows, &[bad])), (4, 2));
    assert_eq!(refused(&book(&rows, &[share(0, 0, 0)])), (8, 2));
    assert_eq!(refused(&book(&rows, &[])[..39]), (3, 0));
    assert_eq!(refused(&[]), (1, 0));
    assert_eq!(refused(&[255; 8]), (2, 0));
    assert_eq!(net(&book(&rows, &[]), &mut []).unwrap_err().number, 13);
}

/// The output has the netted book at its front and keeps all else, with room for it or without.
#[test]
fn every_byte_of_the_output() {
    let whole = book(&[bond(5, 100, 0), bond(5, 0, 40)], &[]);
    let expected = book(&[bond(5, 60, 0)], &[]);
    for room in 24..50 {
        let mut out = vec![0xa5; room];
        assert_eq!(net(&whole, &mut out).unwrap().length, 24);
        assert_eq!(out, [&expected[..], &vec![0xa5; room - 24]].concat());
    }
    for room in 0..24 {
        let mut out = vec![0xa5; room];
        assert_eq!(net(&whole, &mut out).unwrap_err().number, 12);
        assert_eq!(out, vec![0xa5; room]);
    }
}

/// E4 with its 900-day rows as one issue: netted, the joined book costs more than the two, for
/// it used three zones before it was netted. Without the last row it costs less.
#[test]
fn a_netted_join_and_its_zones() {
    let dated = |days: u16, row: [u8; 16]| {
        let mut row = row;
        row[2..4].copy_from_slice(&days.to_le_bytes());
        row
    };
    let a = book(
        &[dated(270, bond(0, 75, 0)), dated(900, bond(5, 0, 30))],
        &[],
    );
    let rows = [dated(900, bond(5, 30, 0)), dated(6000, bond(0, 0, 10))];
    let (b, short) = (book(&rows, &[]), book(&rows[..1], &[]));
    let costs = |book: &[u8]| {
        let netted = netted(book).unwrap();
        charge(&netted, &Table::amendment()).unwrap().total
    };
    assert_eq!([costs(&a), costs(&b)], [210_000; 2]);
    assert_eq!(costs(&joined(&a, &b).unwrap()), 525_000);
    assert_eq!(
        [costs(&short), costs(&joined(&a, &short).unwrap())],
        [525_000; 2]
    );
    let mut out = [0; 100];
    assert_eq!(join(&a, &short, &mut out), Ok(56));
}
