//! Books built by hand for the tests, and what they cost under document 01's table.
#![allow(dead_code)]

pub mod least_trade;
pub mod options;

use second::{InterestLadder, Report};

/// The 16 bytes of a row.
pub type Bytes = [u8; 16];

/// A row with both amounts given.
pub fn sides(group: u8, kind: u8, days: u16, coupon: u16, long: u32, short: u32) -> Bytes {
    let mut row = [0; 16];
    row[0] = group;
    row[1] = kind;
    row[2..4].copy_from_slice(&days.to_le_bytes());
    row[4..6].copy_from_slice(&coupon.to_le_bytes());
    row[8..12].copy_from_slice(&long.to_le_bytes());
    row[12..16].copy_from_slice(&short.to_le_bytes());
    row
}

/// A row with one signed amount: long above zero, short below.
pub fn row(group: u8, kind: u8, days: u16, coupon: u16, net: i64) -> Bytes {
    let amount = u32::try_from(net.unsigned_abs()).unwrap();
    if net > 0 {
        sides(group, kind, days, coupon, amount, 0)
    } else {
        sides(group, kind, days, coupon, 0, amount)
    }
}

/// A government row of currency 7 at coupon 800.
pub fn bond(days: u16, net: i64) -> Bytes {
    row(7, 1, days, 800, net)
}

/// A file with these four counts and these rows, whether they agree or not.
pub fn file(counts: [u16; 4], rows: &[Bytes]) -> Vec<u8> {
    let head = counts.iter().flat_map(|count| count.to_le_bytes());
    head.chain(rows.concat()).collect()
}

/// A book of four bodies.
pub fn book(bodies: [&[Bytes]; 4]) -> Vec<u8> {
    file(bodies.map(|body| body.len() as u16), &bodies.concat())
}

/// A book of interest rows alone.
pub fn interest(rows: &[Bytes]) -> Vec<u8> {
    book([rows, &[], &[], &[]])
}

/// A book of equity rows alone.
pub fn equity(rows: &[Bytes]) -> Vec<u8> {
    book([&[], rows, &[], &[]])
}

/// A book of foreign exchange rows alone, from groups and nets.
pub fn exchange(nets: &[(u8, i64)]) -> Vec<u8> {
    let rows: Vec<Bytes> = nets.iter().map(|(g, net)| row(*g, 0, 0, 0, *net)).collect();
    book([&[], &[], &rows, &[]])
}

/// A book of rows of commodity 5, from days and nets.
pub fn commodity(nets: &[(u16, i64)]) -> Vec<u8> {
    let rows: Vec<Bytes> = nets.iter().map(|(d, net)| row(5, 0, *d, 0, *net)).collect();
    book([&[], &[], &[], &rows])
}

/// A clean row of each class, interest first.
pub fn clean(class: usize) -> Bytes {
    [
        row(1, 1, 100, 500, 10),
        row(2, 2, 0, 0, -20),
        row(3, 0, 0, 0, 30),
        row(4, 0, 400, 0, -40),
    ][class]
}

/// The report of a book under document 01's table.
pub fn charge(book: &[u8]) -> Report {
    second::charge(book, &second::table())
}

/// The ladder of a currency under document 01's table.
pub fn interest_ladder(book: &[u8], group: usize) -> InterestLadder {
    second::interest_ladder(book, &second::table(), group)
}

/// The bytes of a table.
pub fn table(weights: [u16; 15], per_cents: [u8; 6]) -> Vec<u8> {
    [&weights.map(u16::to_le_bytes).concat(), &per_cents[..]].concat()
}
