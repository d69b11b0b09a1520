//! The dearest book of some rows and a largest amount.

use crate::book::room;
use crate::{raw, Refusal};

/// The dearest book: its length, and its total in mils.
#[derive(Clone, Copy, Debug, Default, PartialEq, Eq)]
#[non_exhaustive]
pub struct Dearest {
    /// The length of the book.
    pub length: usize,
    /// What the book costs under document 01's table, and the most that a book of as many rows of at
    /// most as much can cost.
    pub total: u64,
}

impl Dearest {
    /// What a result of [`raw::dearest`] says: the figures, or the refusal.
    pub fn of(result: &[u64; 5]) -> Result<Dearest, Refusal> {
        Refusal::of(result)?;
        Ok(Dearest {
            length: result[3] as usize,
            total: result[4],
        })
    }
}

/// Writes the dearest book of so many rows, each of at most `most` thousands, to the front of `out`: no
/// accepted book of as many rows of at most as much costs more under document 01's table. Its rows are
/// other paper of currency 0 without a coupon, at 36,000 days and long `most` each, which cost 205,000
/// mils for each unit of amount. The call refuses with 22 more than 4,000 rows or a largest amount that
/// is not 1 to 1,000,000,000, and then with 12 an output that is shorter than the book. Bytes past the
/// book keep their values; a refused call writes nothing.
///
/// ```
/// use market_risk::{charge, dearest, Table};
/// let mut out = [7; 42];
/// let two = dearest(2, 100, &mut out)?;
/// assert_eq!((two.length, two.total), (40, 205_000 * 2 * 100));
/// assert_eq!(out[..8], [2, 0, 0, 0, 0, 0, 0, 0]);
/// // Other paper, 36,000 (0x8ca0) days, long 100.
/// assert_eq!(out[8..24], [0, 3, 0xa0, 0x8c, 0, 0, 0, 0, 100, 0, 0, 0, 0, 0, 0, 0]);
/// assert_eq!(out[24..40], out[8..24]);
/// assert_eq!(out[40..], [7, 7]);
/// assert_eq!(charge(&out[..40], &Table::amendment())?.total, two.total);
/// assert_eq!(dearest(2, 100, &mut out[..39]).unwrap_err().number, 12);
/// assert_eq!(dearest(4_001, 100, &mut []).unwrap_err().number, 22);
/// assert_eq!(dearest(2, 0, &mut []).unwrap_err().number, 22);
/// # Ok::<(), market_risk::Refusal>(())
/// ```
pub fn dearest(rows: usize, most: usize, out: &mut [u8]) -> Result<Dearest, Refusal> {
    let mut result = [0; 5];
    raw::dearest(rows, most, out, &mut result);
    Dearest::of(&result)
}

/// The dearest book, in a buffer of its own, and its total in mils.
///
/// ```
/// let (book, total) = market_risk::dearest_book(1, 7)?;
/// assert_eq!(book.len(), 24);
/// assert_eq!(total, 7 * 205_000);
/// // No rows cost nothing.
/// assert_eq!(market_risk::dearest_book(0, 7), Ok((vec![0; 8], 0)));
/// assert_eq!(market_risk::dearest_book(4_001, 7).unwrap_err().number, 22);
/// # Ok::<(), market_risk::Refusal>(())
/// ```
pub fn dearest_book(rows: usize, most: usize) -> Result<(Vec<u8>, u64), Refusal> {
    // More rows are refused, with room or without.
    let mut out = room(rows.saturating_mul(16).saturating_add(8));
    let done = dearest(rows, most, &mut out)?;
    out.truncate(done.length);
    Ok((out, done.total))
}
