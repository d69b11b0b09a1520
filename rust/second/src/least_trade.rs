//! The trade that brings a currency under its limit (document 02, P13). Every amount is tried, from 0
//! upwards: nothing is supposed of how the charge goes on from one to the next.

use crate::book::{read, Refusal};
use crate::interest::{currency, ladder, weighted, Bands};
use crate::table::{read_table, Table, BANDS};
use crate::GROUPS;

/// The largest amount that is tried, in thousands.
const MOST: u64 = 1_000_000;

/// What the call gives: its refusal, or whether an amount brings the charge within the limit, and the
/// least that does.
#[derive(Clone, Copy, Debug, Default, PartialEq, Eq)]
pub struct LeastTrade {
    pub refusal: Refusal,
    pub found: bool,
    /// The least amount, or 0 where none does.
    pub amount: u64,
}

/// The side that a trade is on.
#[derive(Clone, Copy)]
enum Side {
    Long,
    Short,
}

/// The side of a band, or 21 where there is no such side or no such band.
fn side_of(band: usize, side: usize) -> Result<Side, Refusal> {
    match (band < BANDS, side) {
        (true, 0) => Ok(Side::Long),
        (true, 1) => Ok(Side::Short),
        _ => Err(Refusal::of(21)),
    }
}

/// What a currency holds, and where a trade is added to it.
struct Place {
    bands: Bands,
    table: Table,
    band: usize,
    side: Side,
}

impl Place {
    /// The group is looked at first, then the table, then band and side, then the book.
    fn read(
        book: &[u8],
        table: &[u8],
        group: usize,
        band: usize,
        side: usize,
    ) -> Result<Place, Refusal> {
        if group >= GROUPS {
            return Err(Refusal::of(10));
        }
        let table = read_table(table)?;
        let side = side_of(band, side)?;
        let bands = weighted(&currency(&read(book)?, group), &table);
        Ok(Place {
            bands,
            table,
            band,
            side,
        })
    }

    /// The general charge of the currency with an amount added, in mils.
    fn charge(&self, amount: u64) -> u64 {
        let mut bands = self.bands;
        let (long, short) = &mut bands[self.band];
        let added = i128::from(amount) * self.table.weights[self.band];
        match self.side {
            Side::Long => *long += added,
            Side::Short => *short += added,
        }
        ladder(&bands, &self.table).charge
    }

    /// The least amount with which the charge is at most the limit: all are tried, in order.
    fn least(&self, limit: u64) -> Option<u64> {
        (0..=MOST).find(|amount| self.charge(*amount) <= limit)
    }
}

/// The general charge of a currency, in mils, with an amount of at most 1,000,000 added to a side of a
/// band; or why `least_trade` is refused.
pub fn charge_with(
    book: &[u8],
    table: &[u8],
    group: usize,
    band: usize,
    side: usize,
    amount: u64,
) -> Result<u64, Refusal> {
    Ok(Place::read(book, table, group, band, side)?.charge(amount))
}

/// The least amount of at most 1,000,000 that, added to a side of a band (0 long, 1 short), brings the
/// general charge of a currency to at most the limit, in mils.
pub fn least_trade(
    book: &[u8],
    table: &[u8],
    group: usize,
    band: usize,
    side: usize,
    limit: u64,
) -> LeastTrade {
    let answer = |refusal, least: Option<u64>| LeastTrade {
        refusal,
        found: least.is_some(),
        amount: least.unwrap_or(0),
    };
    match Place::read(book, table, group, band, side) {
        Ok(place) => answer(Refusal::NONE, place.least(limit)),
        Err(refusal) => answer(refusal, None),
    }
}
