//! The charge of a book: its report.

use crate::{raw, Refusal, Table};

/// The six charges of a book and their total, in mils, how many rows were taken, and the two
/// interest charges of each currency, in mils.
#[derive(Clone, Copy, Debug, Default, PartialEq, Eq)]
#[non_exhaustive]
pub struct Report {
    /// Interest: what the issuers' kinds cost, row by row.
    pub interest_specific: u64,
    /// Interest: the ladders of all currencies.
    pub interest_general: u64,
    /// Equity: what the gross positions cost, by kind.
    pub equity_specific: u64,
    /// Equity: what the markets' nets cost.
    pub equity_general: u64,
    /// Foreign exchange, with gold.
    pub exchange: u64,
    /// The ladders of all commodities.
    pub commodity: u64,
    /// The six charges together.
    pub total: u64,
    /// How many rows were taken from the file: as many as the book has.
    pub taken: u64,
    /// The specific charge of each currency's interest rows alone, by group. They sum to
    /// `interest_specific`.
    pub specifics: [u64; 32],
    /// The general charge of each currency's interest rows alone, by group. They sum to
    /// `interest_general`.
    pub generals: [u64; 32],
}

/// The figures of the 32 currencies, from an entry on.
fn list(out: &[u64; 75], first: usize) -> [u64; 32] {
    std::array::from_fn(|group| out[first + group])
}

/// Six charges and their total by their names.
pub(crate) fn named(charges: [u64; 7]) -> [(&'static str, u64); 7] {
    const NAMES: [&str; 7] = [
        "interest specific",
        "interest general",
        "equity specific",
        "equity general",
        "foreign exchange",
        "commodity",
        "total",
    ];
    std::array::from_fn(|at| (NAMES[at], charges[at]))
}

impl Report {
    /// The six charges and the total by their names, in mils.
    pub fn named(&self) -> [(&'static str, u64); 7] {
        named([
            self.interest_specific,
            self.interest_general,
            self.equity_specific,
            self.equity_general,
            self.exchange,
            self.commodity,
            self.total,
        ])
    }

    /// What a result of [`raw::charge`] says: the figures, or the refusal.
    pub fn of(out: &[u64; 75]) -> Result<Report, Refusal> {
        Refusal::of(out)?;
        Ok(Report {
            interest_specific: out[3],
            interest_general: out[4],
            equity_specific: out[5],
            equity_general: out[6],
            exchange: out[7],
            commodity: out[8],
            total: out[9],
            taken: out[10],
            specifics: list(out, 11),
            generals: list(out, 43),
        })
    }
}

/// The report of a book under a table.
///
/// ```
/// use market_risk::{charge, Table};
/// let table = Table::amendment();
/// assert_eq!(charge(&[0; 8], &table)?.total, 0);
/// // Two currencies: other paper long 10 at 30 days in currency 0, which costs 8% and bears
/// // no weight; a government bond long 10 at 60 days in currency 31, which bears 0.20%.
/// let mut book = vec![2, 0, 0, 0, 0, 0, 0, 0];
/// book.extend([0, 3, 30, 0, 0x20, 3, 0, 0, 10, 0, 0, 0, 0, 0, 0, 0]);
/// book.extend([31, 1, 60, 0, 0x20, 3, 0, 0, 10, 0, 0, 0, 0, 0, 0, 0]);
/// let report = charge(&book, &table)?;
/// assert_eq!((report.specifics[0], report.generals[0]), (800_000, 0));
/// assert_eq!((report.specifics[31], report.generals[31]), (0, 20_000));
/// assert_eq!(report.specifics.iter().sum::<u64>(), report.interest_specific);
/// assert_eq!(report.generals.iter().sum::<u64>(), report.interest_general);
/// // A floating-rate note, kind 4, long 10: 90 days to its next fixing, where it bears 0.20%,
/// // and 2,880 (0x0b40) to final maturity in the place of the coupon, which cost 1.60%.
/// let mut book = vec![1, 0, 0, 0, 0, 0, 0, 0];
/// book.extend([7, 4, 90, 0, 0x40, 0x0b, 0, 0, 10, 0, 0, 0, 0, 0, 0, 0]);
/// let report = charge(&book, &table)?;
/// assert_eq!((report.interest_specific, report.interest_general), (160_000, 20_000));
/// // A table with 50 basis points in every band: 0.50% of 10 in place of 0.20%.
/// let mut bytes = *table.bytes();
/// bytes[..30].copy_from_slice(&[50, 0].repeat(15));
/// let report = charge(&book, &Table::new(&bytes)?)?;
/// assert_eq!((report.interest_specific, report.interest_general), (160_000, 50_000));
/// # Ok::<(), market_risk::Refusal>(())
/// ```
pub fn charge(book: &[u8], table: &Table) -> Result<Report, Refusal> {
    let mut out = [0; 75];
    raw::charge(book, table.bytes(), &mut out);
    Report::of(&out)
}
