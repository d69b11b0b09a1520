//! What the least trade must answer for currency 7 of some rows.

use super::{interest, table, Bytes};
use second::{charge_with, least_trade};

pub const LONG: usize = 0;
pub const SHORT: usize = 1;

/// A limit, and the least amount that brings the charge within it, or none.
pub type Answer = (u64, Option<u64>);

/// The call must give these answers, in every entry.
pub fn answers(table: &[u8], rows: &[Bytes], band: usize, side: usize, expected: &[Answer]) {
    for (limit, least) in expected {
        let entries = match least {
            Some(amount) => [0, 0, 0, 1, *amount],
            None => [0; 5],
        };
        let trade = least_trade(&interest(rows), table, 7, band, side, *limit);
        assert_eq!(trade.entries(), entries, "band {band}, limit {limit}");
    }
}

/// The same of the mirrored rows on the other side too.
pub fn either_way(table: &[u8], rows: &[Bytes], band: usize, side: usize, expected: &[Answer]) {
    let mirrored = |row: &Bytes| {
        let mut row = *row;
        row[8..].rotate_left(4);
        row
    };
    answers(table, rows, band, side, expected);
    let rows: Vec<Bytes> = rows.iter().map(mirrored).collect();
    answers(table, &rows, band, 1 - side, expected);
}

/// The charges with these amounts added.
pub fn charges(table: &[u8], rows: &[Bytes], band: usize, side: usize, expected: &[(u64, u64)]) {
    for (amount, charge) in expected {
        let with = charge_with(&interest(rows), table, 7, band, side, *amount);
        assert_eq!(with, Ok(*charge), "amount {amount}");
    }
}

/// Document 01's weights with others from a band on, and per cents.
pub fn with_weights(from: usize, weights: &[u16], per_cents: [u8; 6]) -> Vec<u8> {
    let mut all: [u16; 15] = std::array::from_fn(|band| second::interest_weight(band) as u16);
    all[from..from + weights.len()].copy_from_slice(weights);
    table(all, per_cents)
}
