//! The ladder of one commodity.

use crate::{raw, Refusal};

/// The ladder of one commodity: amounts in thousands, the charge in mils.
#[derive(Clone, Copy, Debug, Default, PartialEq, Eq)]
#[non_exhaustive]
pub struct CommodityLadder {
    /// The sum of matches, each counted on one side.
    pub matches: u64,
    /// The sum of amounts carried, counted at every step.
    pub carried: u64,
    /// The net after the last band.
    pub residual: u64,
    /// The charge of the commodity.
    pub charge: u64,
}

impl CommodityLadder {
    /// What a result of [`raw::commodity_ladder`] says: the figures, or the refusal.
    pub fn of(out: &[u64; 7]) -> Result<CommodityLadder, Refusal> {
        Refusal::of(out)?;
        Ok(CommodityLadder {
            matches: out[3],
            carried: out[4],
            residual: out[5],
            charge: out[6],
        })
    }
}

/// The ladder of one commodity, group 0 to 31.
///
/// ```
/// // Commodity 5, stock of 10 on hand: carried through six bands.
/// let mut book = vec![0, 0, 0, 0, 0, 0, 1, 0];
/// book.extend([5, 0, 0, 0, 0, 0, 0, 0, 10, 0, 0, 0, 0, 0, 0, 0]);
/// let ladder = market_risk::commodity_ladder(&book, 5)?;
/// assert_eq!((ladder.carried, ladder.charge), (60, 1_860_000));
/// assert_eq!(market_risk::commodity_ladder(&book, 32).unwrap_err().number, 10);
/// # Ok::<(), market_risk::Refusal>(())
/// ```
pub fn commodity_ladder(book: &[u8], group: usize) -> Result<CommodityLadder, Refusal> {
    let mut out = [0; 7];
    raw::commodity_ladder(book, group, &mut out);
    CommodityLadder::of(&out)
}
