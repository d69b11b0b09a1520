//! A trade for a book or a table that was cut: its limit keeps its distance from the charge.

use super::Trade;

/// The amount that a limit is about: the least, or where there is none that with the lowest charge.
fn amount(trade: &Trade, book: &[u8], table: &[u8]) -> Option<u64> {
    let least = trade.least(book, table).ok()?;
    let charge = |amount: &u64| trade.charge(book, table, *amount).ok();
    let turns = trade.turns(book, table);
    least.or_else(|| turns.into_iter().min_by_key(charge))
}

impl Trade {
    /// The trade for another book and table, of which the call is accepted as before.
    pub fn moved(self, before: [&[u8]; 2], after: [&[u8]; 2]) -> Trade {
        let limit = || {
            let amount = amount(&self, before[0], before[1])?;
            let charge = |[book, table]: [&[u8]; 2]| self.charge(book, table, amount).ok();
            let (before, after) = (charge(before)?, charge(after)?);
            let limit = i128::from(self.limit) + i128::from(after) - i128::from(before);
            u64::try_from(limit).ok()
        };
        Trade {
            limit: limit().unwrap_or(self.limit),
            ..self
        }
    }
}
