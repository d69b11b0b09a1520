//! The pass: each row is checked and added to its sums.

use crate::book::{Bad, Book};
use crate::row::Row;
use crate::table::Weights;
use crate::tables::{cell, COMMODITY, EQUITY, INTEREST, SPECIFIC};

/// Longs and shorts.
pub type Sides = [u64; 2];

/// A currency's weighted positions by band. The last place is no band: its first side is the
/// sum of the rows' amounts times their specific weights, beside the bands of the same rows.
pub type Currency = [Sides; 16];

/// The place of that sum.
pub const SUM: usize = 15;

/// A commodity's amounts by band; the last place is unused.
pub type Commodity = [Sides; 8];

/// Everything that the charges are made of.
pub struct Sums {
    pub interest: [Currency; 32],
    pub commodity: [Commodity; 32],
    pub equity: [i64; 32],
    pub exchange: [i64; 32],
    pub equity_specific: u64,
    /// The groups with interest rows and with commodity rows, a bit each.
    pub currencies: u32,
    pub commodities: u32,
}

/// Adds a row to its interest band.
#[inline(always)]
pub fn add_interest(bands: &mut Currency, row: Row, weights: &Weights) {
    let column = usize::from(row.coupon() < 300);
    let band = usize::from(INTEREST[column][cell(row.days())] & 15);
    let weight = weights[band];
    bands[band][0] += weight * row.long();
    bands[band][1] += weight * row.short();
}

/// The specific weight of an interest row, by its kind and its final maturity.
#[inline(always)]
fn specific(row: Row) -> u64 {
    let maturity = row.maturity();
    let term = usize::from(maturity > 180) + usize::from(maturity > 720);
    SPECIFIC[row.kind()][term]
}

/// Adds a row to its commodity band.
#[inline(always)]
pub fn add_commodity(bands: &mut Commodity, row: Row) {
    let band = usize::from(COMMODITY[cell(row.days())] & 7);
    bands[band][0] += row.long();
    bands[band][1] += row.short();
}

impl Sums {
    pub const ZERO: Sums = Sums {
        interest: [[[0; 2]; 16]; 32],
        commodity: [[[0; 2]; 8]; 32],
        equity: [0; 32],
        exchange: [0; 32],
        equity_specific: 0,
        currencies: 0,
        commodities: 0,
    };

    /// Takes a book in, up to its first bad row, and gives how many rows it took. The sums
    /// are large: they are not returned.
    #[inline(always)]
    pub fn take(&mut self, book: &Book, weights: &Weights) -> Result<usize, Bad> {
        let interest = self.take_interest(book, weights)?;
        let equity = self.take_equity(book)?;
        let exchange = book.each(2, |row| self.exchange[row.group()] += row.net())?;
        let commodity = self.take_commodity(book)?;
        Ok(interest + equity + exchange + commodity)
    }

    // Sums over all groups are kept in local variables, so that they stay in registers.

    #[inline(always)]
    fn take_interest(&mut self, book: &Book, weights: &Weights) -> Result<usize, Bad> {
        let mut used = 0;
        let taken = book.each(0, |row| {
            let currency = &mut self.interest[row.group()];
            add_interest(currency, row, weights);
            currency[SUM][0] += row.amount() * specific(row);
            used |= 1 << row.group();
        })?;
        self.currencies = used;
        Ok(taken)
    }

    #[inline(always)]
    fn take_equity(&mut self, book: &Book) -> Result<usize, Bad> {
        let mut specific = 0;
        let taken = book.each(1, |row| {
            self.equity[row.group()] += row.net();
            specific += row.amount() * EQUITY[row.kind()];
        })?;
        self.equity_specific = specific;
        Ok(taken)
    }

    #[inline(always)]
    fn take_commodity(&mut self, book: &Book) -> Result<usize, Bad> {
        let mut used = 0;
        let taken = book.each(3, |row| {
            add_commodity(&mut self.commodity[row.group()], row);
            used |= 1 << row.group();
        })?;
        self.commodities = used;
        Ok(taken)
    }
}
