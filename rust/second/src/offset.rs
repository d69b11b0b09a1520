//! Offsetting swap legs (document 02, P2). The Amendment allows it: opposite legs of one currency,
//! amount and reference rate are matched when their coupons and days lie close (A.1, 21).

use crate::book::{read, Class, Refusal, Row};
use crate::kinds::GOVERNMENT;
use crate::written::{file, write};
use std::collections::VecDeque;

/// What offsetting gives: the refusal, or the length of the book that is written.
#[derive(Clone, Copy, Debug, Default, PartialEq, Eq)]
pub struct Offset {
    pub refusal: Refusal,
    pub length: u64,
}

/// Whether a row may be a swap leg.
fn leg(row: &Row) -> bool {
    row.class == Class::Interest && row.kind == GOVERNMENT
}

/// How far apart the days of two legs may be, by the days of the nearer (A.1, 21).
fn days_apart(nearer: i128) -> i128 {
    match nearer {
        ..=29 => 0,
        30..=360 => 7,
        _ => 30,
    }
}

/// Whether two legs offset each other. A row has one side, so that equal amounts on opposite sides
/// are nets that sum to nothing.
fn fit(one: &Row, other: &Row) -> bool {
    let days = (one.days - other.days).abs();
    one.group == other.group
        && one.net() + other.net() == 0
        && (one.coupon - other.coupon).abs() <= 15
        && days <= days_apart(one.days.min(other.days))
}

/// The numbers of the rows that stay: those that are no legs, and what is left of the legs. The first
/// leg that waits takes the first of the others that fits it away with it; where none does, it
/// stays.
fn staying(rows: &[Row]) -> Vec<usize> {
    let is_leg = |at: &usize| leg(&rows[*at]);
    let mut waiting: VecDeque<usize> = (0..rows.len()).filter(is_leg).collect();
    let mut staying: Vec<usize> = (0..rows.len()).filter(|at| !is_leg(at)).collect();
    while let Some(first) = waiting.pop_front() {
        let fitting = |later: &usize| fit(&rows[first], &rows[*later]);
        match waiting.iter().position(fitting) {
            Some(place) => drop(waiting.remove(place)),
            None => staying.push(first),
        }
    }
    staying.sort_unstable();
    staying
}

/// The book without its offsetting legs, or why there is none.
pub fn offset_book(book: &[u8]) -> Result<Vec<u8>, Refusal> {
    let rows = read(book)?;
    let bytes = |at: usize| book[8 + 16 * at..][..16].to_vec();
    let staying = staying(&rows).into_iter();
    let staying: Vec<_> = staying.map(|at| (rows[at].class, bytes(at))).collect();
    Ok(file(&staying))
}

/// Writes the book without its offsetting legs to the front of `out`; the bytes past it keep their
/// values.
pub fn offset(book: &[u8], out: &mut [u8]) -> Offset {
    match offset_book(book).and_then(|bytes| write(&bytes, out)) {
        Err(refusal) => Offset { refusal, length: 0 },
        Ok(length) => Offset {
            refusal: Refusal::NONE,
            length,
        },
    }
}
