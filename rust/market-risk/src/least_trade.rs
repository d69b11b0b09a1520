//! The least trade that brings a currency within its limit.

use crate::{raw, Refusal, Table};

/// The side of a band that a trade is added to.
#[derive(Clone, Copy, Debug, PartialEq, Eq)]
pub enum Side {
    /// What is owned, or is to be received.
    Long,
    /// What is owed, or was sold.
    Short,
}

impl Side {
    /// The number that the C interface has for it.
    pub fn number(self) -> usize {
        match self {
            Side::Long => 0,
            Side::Short => 1,
        }
    }
}

/// The least amount, 0 to 1,000,000 thousands, that brings the interest general charge of one currency to at
/// most `limit` mils under a table, when it is added to what the book's rows sum to in a band, 0 to 14, on a
/// side. It is added to that sum, not to the book as a row. `Some(0)` is a currency that is within the limit
/// as it stands; `None` is said just when no amount from 0 to 1,000,000 is within it. The charge may fall and
/// rise as the amount grows: one amount may be the only one within the limit, and larger ones need not be.
///
/// The call refuses with 10 a group over 31, then with 21 a band over 14, and then the book.
///
/// ```
/// use market_risk::{interest_ladder, least_trade, Side, Table};
/// // Currency 7, a government bond long 100 at 900 (0x0384) days, coupon 8%: band 5, which bears 1.75%.
/// let mut book = vec![1, 0, 0, 0, 0, 0, 0, 0];
/// book.extend([7, 1, 0x84, 3, 0x20, 3, 0, 0, 100, 0, 0, 0, 0, 0, 0, 0]);
/// let table = Table::amendment();
/// assert_eq!(interest_ladder(&book, &table, 7)?.charge, 1_750_000);
/// // A unit short takes 17,500 off what is left, and its match costs a tenth of that.
/// let short = |limit| least_trade(&book, &table, 7, 5, Side::Short, limit);
/// assert_eq!(short(1_000_000)?, Some(48));
/// assert_eq!(short(1_750_000)?, Some(0));
/// // All matched, 17,500 cost a tenth: no amount costs less.
/// assert_eq!(short(175_000)?, Some(100));
/// assert_eq!(short(174_999)?, None);
/// // More of the long side only adds to it.
/// assert_eq!(least_trade(&book, &table, 7, 5, Side::Long, 1_000_000)?, None);
/// assert_eq!(least_trade(&book, &table, 7, 15, Side::Long, 1_000_000).unwrap_err().number, 21);
/// # Ok::<(), market_risk::Refusal>(())
/// ```
pub fn least_trade(
    book: &[u8],
    table: &Table,
    group: usize,
    band: usize,
    side: Side,
    limit: u64,
) -> Result<Option<u64>, Refusal> {
    let mut result = [0; 5];
    let side = side.number();
    raw::least_trade(book, table.bytes(), group, band, side, limit, &mut result);
    Refusal::of(&result)?;
    Ok((result[3] == 1).then_some(result[4]))
}
