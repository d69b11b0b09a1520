//! The interest ladder of one currency.

use crate::{raw, Refusal, Table};

/// The interest ladder of one currency. All but the charge are weighted positions:
/// amounts in thousands times basis points. The charge is in mils.
#[derive(Clone, Copy, Debug, Default, PartialEq, Eq)]
#[non_exhaustive]
pub struct InterestLadder {
    /// Weighted longs plus weighted shorts.
    pub gross: u64,
    /// Matched within bands.
    pub vertical: u64,
    /// Matched within zones 1, 2 and 3.
    pub zones: [u64; 3],
    /// Matched between zones 1 and 2.
    pub zones_1_2: u64,
    /// Matched between zones 2 and 3.
    pub zones_2_3: u64,
    /// Matched between zones 1 and 3.
    pub zones_1_3: u64,
    /// What is left, without its sign.
    pub residual: u64,
    /// The general charge of the currency.
    pub charge: u64,
}

impl InterestLadder {
    /// What a result of [`raw::interest_ladder`] says: the figures, or the refusal.
    pub fn of(out: &[u64; 13]) -> Result<InterestLadder, Refusal> {
        Refusal::of(out)?;
        Ok(InterestLadder {
            gross: out[3],
            vertical: out[4],
            zones: [out[5], out[6], out[7]],
            zones_1_2: out[8],
            zones_2_3: out[9],
            zones_1_3: out[10],
            residual: out[11],
            charge: out[12],
        })
    }
}

/// The interest ladder of one currency under a table, group 0 to 31.
///
/// ```
/// use market_risk::{interest_ladder, Table};
/// // Currency 7, a government bond long 10 at 60 days, coupon 8%.
/// let mut book = vec![1, 0, 0, 0, 0, 0, 0, 0];
/// book.extend([7, 1, 60, 0, 0x20, 3, 0, 0, 10, 0, 0, 0, 0, 0, 0, 0]);
/// let ladder = interest_ladder(&book, &Table::amendment(), 7)?;
/// assert_eq!((ladder.gross, ladder.residual, ladder.charge), (200, 200, 20_000));
/// # Ok::<(), market_risk::Refusal>(())
/// ```
pub fn interest_ladder(
    book: &[u8],
    table: &Table,
    group: usize,
) -> Result<InterestLadder, Refusal> {
    let mut out = [0; 13];
    raw::interest_ladder(book, table.bytes(), group, &mut out);
    InterestLadder::of(&out)
}
