//! The charges of a bank with only foreign exchange and commodities.

use crate::{raw, Refusal};

/// Foreign exchange, the commodities by the simplified method, and their sum, in mils.
#[derive(Clone, Copy, Debug, Default, PartialEq, Eq)]
#[non_exhaustive]
pub struct SmallBank {
    /// As in the [`Report`](crate::Report).
    pub exchange: u64,
    /// 15% of each commodity's absolute net and 3% of its gross, whatever the days.
    pub commodity: u64,
    /// Both together.
    pub total: u64,
}

impl SmallBank {
    /// What a result of [`raw::small_bank`] says: the figures, or the refusal.
    pub fn of(out: &[u64; 6]) -> Result<SmallBank, Refusal> {
        Refusal::of(out)?;
        Ok(SmallBank {
            exchange: out[3],
            commodity: out[4],
            total: out[5],
        })
    }
}

/// The charges of a book of foreign exchange and commodities; one with interest or equity rows
/// is refused with 20.
///
/// ```
/// // Currency 1 long 100. Commodity 5, long 80 at 30 days and short 30 at 360: net 50 and
/// // gross 110, on which 15% and 3% are 7.5 and 3.3 thousands.
/// let mut book = vec![0, 0, 0, 0, 1, 0, 2, 0];
/// book.extend([1, 0, 0, 0, 0, 0, 0, 0, 100, 0, 0, 0, 0, 0, 0, 0]);
/// book.extend([5, 0, 30, 0, 0, 0, 0, 0, 80, 0, 0, 0, 0, 0, 0, 0]);
/// book.extend([5, 0, 0x68, 1, 0, 0, 0, 0, 0, 0, 0, 0, 30, 0, 0, 0]);
/// let charged = market_risk::small_bank(&book)?;
/// assert_eq!((charged.exchange, charged.commodity), (8_000_000, 10_800_000));
/// assert_eq!(charged.total, 18_800_000);
/// // The counts call one row of foreign exchange an equity row.
/// book[..6].copy_from_slice(&[0, 0, 1, 0, 0, 0]);
/// assert_eq!(market_risk::small_bank(&book).unwrap_err().number, 20);
/// # Ok::<(), market_risk::Refusal>(())
/// ```
pub fn small_bank(book: &[u8]) -> Result<SmallBank, Refusal> {
    let mut out = [0; 6];
    raw::small_bank(book, &mut out);
    SmallBank::of(&out)
}
