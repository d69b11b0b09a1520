//! Netting: the rows of one issue become one.

use crate::book::room;
use crate::{raw, Refusal};

/// What netting a book came to, with offsetting after it or without.
#[derive(Clone, Copy, Debug, Default, PartialEq, Eq)]
#[non_exhaustive]
pub struct Netted {
    /// The length of the book that is written.
    pub length: usize,
    /// How often the issue numbers of two rows were compared: in each class each row that has one,
    /// with the first rows of the issues before it, in order, up to the one of its own issue. Of a
    /// book of n rows at most n(n - 1)/2.
    pub comparisons: u64,
}

impl Netted {
    /// What a result of [`raw::net`] or [`raw::net_and_offset`] says: the figures, or the refusal.
    pub fn of(result: &[u64; 5]) -> Result<Netted, Refusal> {
        Refusal::of(result)?;
        Ok(Netted {
            length: result[3] as usize,
            comparisons: result[4],
        })
    }
}

/// Writes the netted book to the front of `out` and gives its length, and how many comparisons it
/// took. Within a class the rows of one issue number other than 0 become one, with their net, in
/// the place of the first; an issue that nets to zero is left out. Bytes past the netted book keep
/// their values; a refused call writes nothing.
///
/// ```
/// // Currency 7, a government bond of 1,080 days (0x0438), issue 5: long 100 and short 40.
/// let mut book = vec![2, 0, 0, 0, 0, 0, 0, 0];
/// book.extend([7, 1, 0x38, 4, 0x20, 3, 5, 0, 100, 0, 0, 0, 0, 0, 0, 0]);
/// book.extend([7, 1, 0x38, 4, 0x20, 3, 5, 0, 0, 0, 0, 0, 40, 0, 0, 0]);
/// let mut out = [9; 26];
/// let netted = market_risk::net(&book, &mut out).unwrap();
/// assert_eq!((netted.length, netted.comparisons), (24, 1));
/// assert_eq!(out[..8], [1, 0, 0, 0, 0, 0, 0, 0]);
/// assert_eq!(out[8..24], [7, 1, 0x38, 4, 0x20, 3, 5, 0, 60, 0, 0, 0, 0, 0, 0, 0]);
/// assert_eq!(out[24..], [9, 9]);
/// // The second row is a day shorter: not the same bond.
/// book[26] = 0x37;
/// let refusal = market_risk::net(&book, &mut out).unwrap_err();
/// assert_eq!((refusal.number, refusal.row), (13, 1));
/// ```
pub fn net(book: &[u8], out: &mut [u8]) -> Result<Netted, Refusal> {
    let mut result = [0; 5];
    raw::net(book, out, &mut result);
    Netted::of(&result)
}

/// The netted book, in a buffer of its own.
///
/// ```
/// assert_eq!(market_risk::netted(&[0; 8]), Ok(vec![0; 8]));
/// ```
pub fn netted(book: &[u8]) -> Result<Vec<u8>, Refusal> {
    // A netted book is never longer than the book.
    let mut out = room(book.len());
    let netted = net(book, &mut out)?;
    out.truncate(netted.length);
    Ok(out)
}
