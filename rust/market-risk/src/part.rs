//! The part of a book that holds the rows of one class.

use crate::{raw, Refusal};
use std::ops::Range;

/// What a result of [`raw::part`] says: where the part lies in the book, or the refusal.
fn place(out: &[u64; 5]) -> Result<Range<usize>, Refusal> {
    Refusal::of(out)?;
    let [start, length] = [out[3] as usize, out[4] as usize];
    Ok(start..start + length)
}

/// The rows of a class as they lie in the book, of which nothing is copied: 1 interest, 2 equity,
/// 3 foreign exchange, 4 commodities. No other number has any.
///
/// ```
/// // Two shares, and gold.
/// let mut book = vec![0, 0, 2, 0, 1, 0, 0, 0];
/// book.extend([3, 1, 0, 0, 0, 0, 0, 0, 100, 0, 0, 0, 0, 0, 0, 0]);
/// book.extend([3, 3, 0, 0, 0, 0, 0, 0, 0, 0, 0, 0, 40, 0, 0, 0]);
/// book.extend([0, 0, 0, 0, 0, 0, 0, 0, 7, 0, 0, 0, 0, 0, 0, 0]);
/// assert_eq!(market_risk::part(&book, 2)?, &book[8..40]);
/// assert_eq!(market_risk::part(&book, 3)?, &book[40..]);
/// assert!(market_risk::part(&book, 4)?.is_empty());
/// assert_eq!(market_risk::part(&book[..55], 2).unwrap_err().number, 3);
/// # Ok::<(), market_risk::Refusal>(())
/// ```
pub fn part(book: &[u8], class: usize) -> Result<&[u8], Refusal> {
    let mut out = [0; 5];
    raw::part(book, class, &mut out);
    Ok(&book[place(&out)?])
}
