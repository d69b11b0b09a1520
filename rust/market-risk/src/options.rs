//! Options on equity, foreign exchange and commodities, by the delta-plus method.

use crate::{charge, raw, Refusal};

/// The bytes that the book of any option table has room in: its contents and 1,000 rows.
const MOST_BYTES: usize = 8 + 16 * 1_000;

/// A charge of each class that options are on, in mils.
#[derive(Clone, Copy, Debug, Default, PartialEq, Eq)]
#[non_exhaustive]
pub struct ByClass {
    /// Options on shares and indices.
    pub equity: u64,
    /// Options on currencies and gold.
    pub exchange: u64,
    /// Options on commodities.
    pub commodity: u64,
}

/// What options cost, in mils: gamma and vega, and the charges of the book of their deltas. Neither gamma nor
/// vega is in a charge of the book or in its total: the whole charge is the total, the three of gamma and the
/// three of vega together.
#[derive(Clone, Copy, Debug, Default, PartialEq, Eq)]
#[non_exhaustive]
pub struct Options {
    /// The length of the book.
    pub length: usize,
    /// What the sums of gamma that are below zero cost.
    pub gamma: ByClass,
    /// What the sums of vega cost, whichever sign they have.
    pub vega: ByClass,
    /// Always 0, as is the next: the book has no interest rows.
    pub interest_specific: u64,
    /// Always 0.
    pub interest_general: u64,
    /// As in the [`Report`](crate::Report) of the book, like the charges below.
    pub equity_specific: u64,
    /// What the markets' nets of the deltas cost.
    pub equity_general: u64,
    /// The deltas of foreign exchange, with gold.
    pub exchange: u64,
    /// The ladders of the commodities' deltas.
    pub commodity: u64,
    /// The six charges of the book together.
    pub total: u64,
}

/// Three entries, from one on.
fn by_class(result: &[u64; 17], first: usize) -> ByClass {
    ByClass {
        equity: result[first],
        exchange: result[first + 1],
        commodity: result[first + 2],
    }
}

impl Options {
    /// The six charges of the book of the deltas and their total by their names, in mils.
    pub fn named(&self) -> [(&'static str, u64); 7] {
        charge::named([
            self.interest_specific,
            self.interest_general,
            self.equity_specific,
            self.equity_general,
            self.exchange,
            self.commodity,
            self.total,
        ])
    }

    /// What a result of [`raw::options`] says: the figures, or the refusal.
    pub fn of(result: &[u64; 17]) -> Result<Options, Refusal> {
        Refusal::of(result)?;
        Ok(Options {
            length: result[3] as usize,
            gamma: by_class(result, 4),
            vega: by_class(result, 7),
            interest_specific: result[10],
            interest_general: result[11],
            equity_specific: result[12],
            equity_general: result[13],
            exchange: result[14],
            commodity: result[15],
            total: result[16],
        })
    }
}

/// Writes the book of an option table's deltas to the front of `out`, and charges it under document 01's table,
/// and gamma and vega beside it. The table is a count of two bytes and options of 18 bytes: class (2 equity, 3
/// foreign exchange, 4 commodities), group, right (0 bought call, 1 bought put, 2 sold call, 3 sold put) and
/// kind; the amount of the underlying in four bytes; and in two bytes each delta, gamma, vega, volatility and
/// days. An option whose delta is not 0 gives a row of amount times delta, rounded up, which is long for bought
/// calls and sold puts; in each class the rows stand in the order of the table. Gamma and vega are positive
/// where the option is bought, and are added for each class and group.
///
/// The call refuses with 16 a table of more than 1,000 options or of a length that is not its count's, then with
/// 17 an option with a field out of its range, whose place in the table is given, and then with 12 an output
/// that is shorter than the book. Bytes past the book keep their values; a refused call writes nothing.
///
/// ```
/// use market_risk::{charge, options, Table};
/// // A sold call on commodity 5: 25,000 (0x61a8) at a delta of 0.7210 (0x1c2a), gamma 170, vega 84, volatility
/// // 20 points (0x07d0), 1,081 (0x0439) days.
/// let mut table = vec![1, 0, 4, 5, 2, 0, 0xa8, 0x61, 0, 0];
/// table.extend([0x2a, 0x1c, 170, 0, 84, 0, 0xd0, 0x07, 0x39, 0x04]);
/// let mut out = [7; 26];
/// let sold = options(&table, &mut out)?;
/// // Short 18,025 (0x4669), which cost 15%.
/// assert_eq!(out[..8], [0, 0, 0, 0, 0, 0, 1, 0]);
/// assert_eq!(out[8..24], [5, 0, 0x39, 0x04, 0, 0, 0, 0, 0, 0, 0, 0, 0x69, 0x46, 0, 0]);
/// assert_eq!(out[24..], [7, 7]);
/// assert_eq!((sold.length, sold.commodity, sold.total), (24, 2_703_750_000, 2_703_750_000));
/// assert_eq!(charge(&out[..24], &Table::amendment())?.total, sold.total);
/// // Half of 25,000 x 170 x 15 x 15, and 84 x 2,000 x 2,500.
/// assert_eq!((sold.gamma.commodity, sold.vega.commodity), (478_125_000, 420_000_000));
/// assert_eq!((sold.gamma.equity, sold.gamma.exchange), (0, 0));
/// // Without room for the book; with a group that is none; without its last byte.
/// assert_eq!(options(&table, &mut out[..23]).unwrap_err().number, 12);
/// table[3] = 32;
/// let refusal = options(&table, &mut out).unwrap_err();
/// assert_eq!((refusal.number, refusal.row), (17, 0));
/// assert_eq!(options(&table[..19], &mut out).unwrap_err().number, 16);
/// # Ok::<(), market_risk::Refusal>(())
/// ```
pub fn options(table: &[u8], out: &mut [u8]) -> Result<Options, Refusal> {
    let mut result = [0; 17];
    raw::options(table, out, &mut result);
    Options::of(&result)
}

/// The book of an option table's deltas, in a buffer of its own, and what the options cost.
///
/// ```
/// use market_risk::options_book;
/// // No options cost nothing, and give the book without rows.
/// let (book, none) = options_book(&[0, 0])?;
/// assert_eq!(book, [0; 8]);
/// assert_eq!((none.length, none.total), (8, 0));
/// // A bought put on a share of market 3, 30 at a delta of 0.5 (5,000 is 0x1388): short 15, which cost 8% and 8%.
/// let mut table = vec![1, 0, 2, 3, 1, 1, 30, 0, 0, 0];
/// table.extend([0x88, 0x13, 0, 0, 0, 0, 0, 0, 0, 0]);
/// let (book, put) = options_book(&table)?;
/// assert_eq!(book[8..], [3, 1, 0, 0, 0, 0, 0, 0, 0, 0, 0, 0, 15, 0, 0, 0]);
/// assert_eq!((put.equity_specific, put.equity_general), (1_200_000, 1_200_000));
/// assert_eq!(put.total, 2_400_000);
/// assert_eq!(options_book(&[0]).unwrap_err().number, 16);
/// # Ok::<(), market_risk::Refusal>(())
/// ```
pub fn options_book(table: &[u8]) -> Result<(Vec<u8>, Options), Refusal> {
    let mut out = vec![0; MOST_BYTES];
    let priced = options(table, &mut out)?;
    out.truncate(priced.length);
    Ok((out, priced))
}

#[cfg(test)]
mod tests {
    use super::*;

    /// Catches a field that is read from another's entry, those of interest too, which are 0 in every answer.
    #[test]
    fn each_field_has_its_entry() {
        let entries = std::array::from_fn(|entry| entry as u64);
        let expected = Options {
            length: 3,
            gamma: ByClass {
                equity: 4,
                exchange: 5,
                commodity: 6,
            },
            vega: ByClass {
                equity: 7,
                exchange: 8,
                commodity: 9,
            },
            interest_specific: 10,
            interest_general: 11,
            equity_specific: 12,
            equity_general: 13,
            exchange: 14,
            commodity: 15,
            total: 16,
        };
        assert_eq!(Options::of(&entries), Ok(expected));
    }
}
