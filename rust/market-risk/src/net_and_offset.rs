//! Netting and then offsetting, in one call.

use crate::book::room;
use crate::{raw, Netted, Refusal};

/// Nets a book, offsets the swap legs of the netted rows, and writes what is left to the front of
/// `out`: what [`offset`](crate::offset) writes of the book that [`net`](crate::net) writes. It gives
/// the length, and how many comparisons netting took. An output that is too short for the netted
/// book is long enough where the written one fits. Bytes past the written book keep their values; a
/// refused call writes nothing.
///
/// ```
/// // Currency 7, coupon 8%: long 100 at 900 days (0x0384), and at 910 (0x038e) issue 5, short 60
/// // and short 40. Neither of these fits the first row, and the two as one row do.
/// let mut book = vec![3, 0, 0, 0, 0, 0, 0, 0];
/// book.extend([7, 1, 0x84, 3, 0x20, 3, 0, 0, 100, 0, 0, 0, 0, 0, 0, 0]);
/// book.extend([7, 1, 0x8e, 3, 0x20, 3, 5, 0, 0, 0, 0, 0, 60, 0, 0, 0]);
/// book.extend([7, 1, 0x8e, 3, 0x20, 3, 5, 0, 0, 0, 0, 0, 40, 0, 0, 0]);
/// let mut out = [9; 10];
/// let done = market_risk::net_and_offset(&book, &mut out).unwrap();
/// assert_eq!((done.length, done.comparisons), (8, 1));
/// assert_eq!(out, [0, 0, 0, 0, 0, 0, 0, 0, 9, 9]);
/// // Offsetting alone leaves all three.
/// assert_eq!(market_risk::offset_book(&book), Ok(book.clone()));
/// // The third row is a day longer: not the same bond.
/// book[42] = 0x8f;
/// let refusal = market_risk::net_and_offset(&book, &mut out).unwrap_err();
/// assert_eq!((refusal.number, refusal.row), (13, 2));
/// ```
pub fn net_and_offset(book: &[u8], out: &mut [u8]) -> Result<Netted, Refusal> {
    let mut result = [0; 5];
    raw::net_and_offset(book, out, &mut result);
    Netted::of(&result)
}

/// The book that is left after netting and then offsetting, in a buffer of its own.
///
/// ```
/// assert_eq!(market_risk::net_and_offset_book(&[0; 8]), Ok(vec![0; 8]));
/// ```
pub fn net_and_offset_book(book: &[u8]) -> Result<Vec<u8>, Refusal> {
    // It is never longer than the book.
    let mut out = room(book.len());
    let written = net_and_offset(book, &mut out)?;
    out.truncate(written.length);
    Ok(out)
}
