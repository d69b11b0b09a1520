//! Offsetting: swap legs that match are left out.

use crate::book::room;
use crate::{raw, Refusal};

/// Writes the book without its offsetting swap legs to the front of `out` and gives its length. The
/// government rows of interest are taken in order, each with the first later one that is still
/// there and fits it, and both are left out; all other rows stay, in order. Two rows fit when they
/// are of one currency, with equal amounts on opposite sides, coupons at most 15 basis points
/// apart, and days that are equal where the nearer is under 30, at most 7 apart from 30 to 360, and
/// at most 30 apart beyond. What is left out depends on the order of the rows. Bytes past the
/// written book keep their values; a refused call writes nothing.
///
/// ```
/// // Currency 7, coupon 8%: long 100 at 360 days (0x0168), short 100 at 367 and long 100 at 370.
/// let mut book = vec![3, 0, 0, 0, 0, 0, 0, 0];
/// book.extend([7, 1, 0x68, 1, 0x20, 3, 0, 0, 100, 0, 0, 0, 0, 0, 0, 0]);
/// book.extend([7, 1, 0x6f, 1, 0x20, 3, 0, 0, 0, 0, 0, 0, 100, 0, 0, 0]);
/// book.extend([7, 1, 0x72, 1, 0x20, 3, 0, 0, 100, 0, 0, 0, 0, 0, 0, 0]);
/// let mut out = [9; 26];
/// assert_eq!(market_risk::offset(&book, &mut out), Ok(24));
/// assert_eq!(out[..8], [1, 0, 0, 0, 0, 0, 0, 0]);
/// assert_eq!(out[8..24], book[40..]);
/// assert_eq!(out[24..], [9, 9]);
/// // The first leg is a day shorter, and 8 days are too far apart: the second takes the third.
/// book[10] = 0x67;
/// assert_eq!(market_risk::offset(&book, &mut out), Ok(24));
/// assert_eq!(out[8..24], book[8..24]);
/// assert_eq!(market_risk::offset(&book, &mut out[..23]).unwrap_err().number, 12);
/// ```
pub fn offset(book: &[u8], out: &mut [u8]) -> Result<usize, Refusal> {
    let mut result = [0; 4];
    raw::offset(book, out, &mut result);
    Refusal::of(&result)?;
    Ok(result[3] as usize)
}

/// The book without its offsetting swap legs, in a buffer of its own.
///
/// ```
/// assert_eq!(market_risk::offset_book(&[0; 8]), Ok(vec![0; 8]));
/// ```
pub fn offset_book(book: &[u8]) -> Result<Vec<u8>, Refusal> {
    // It is never longer than the book.
    let mut out = room(book.len());
    let length = offset(book, &mut out)?;
    out.truncate(length);
    Ok(out)
}
