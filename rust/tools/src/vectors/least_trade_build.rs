//! Least trades put together by hand.

use super::build::{call, only, row, Call, Case, Trade};

/// Where a trade is added: a currency of a book, a band and a side, under a table.
#[derive(Clone, Debug)]
pub struct Place {
    pub book: Vec<u8>,
    pub table: Vec<u8>,
    pub group: u16,
    pub band: u16,
    pub side: u16,
}

impl Place {
    /// Under document 01's table.
    pub fn new(book: &[u8], group: u16, band: u16, side: u16) -> Place {
        Place {
            book: book.to_vec(),
            table: second::table().to_vec(),
            group,
            band,
            side,
        }
    }

    /// The same under another table.
    pub fn by(&self, table: &[u8]) -> Place {
        Place {
            table: table.to_vec(),
            ..self.clone()
        }
    }

    /// The call with a limit.
    pub fn case(&self, limit: u64) -> Case {
        let trade = Trade {
            table: self.table.clone(),
            group: self.group,
            band: self.band,
            side: self.side,
            limit,
        };
        call(Call::LeastTrade(trade), &self.book)
    }

    /// What the currency costs with an amount added there, by the second calculation. Nothing may be refused.
    pub fn charge(&self, amount: u64) -> u64 {
        let [group, band, side] = [self.group, self.band, self.side].map(usize::from);
        let charge = second::charge_with(&self.book, &self.table, group, band, side, amount);
        charge.expect("a place that there is, in an accepted book")
    }

    /// The calls with the limit at what an amount costs, one mil below it and one above.
    pub fn around(&self, amount: u64) -> Vec<Case> {
        let limit = self.charge(amount);
        [limit, limit - 1, limit + 1]
            .map(|limit| self.case(limit))
            .to_vec()
    }
}

/// The last day of each band where the coupon is below 300.
pub const DAYS: [u16; 15] = [
    30, 90, 180, 360, 684, 1_008, 1_296, 1_548, 2_052, 2_628, 3_348, 3_816, 4_320, 7_200, 36_000,
];

/// A government bond of currency 7 at 900 days, coupon 800, long so many, and shorts added to its band.
pub fn bond(long: i64) -> Place {
    Place::new(&only(0, &[row(7, 1, 900, 800, long)]), 7, 5, 1)
}

/// The answer of a least trade: its number and row, whether an amount is found, and the amount.
#[cfg(test)]
pub fn answer(case: &Case) -> [u64; 4] {
    let Call::LeastTrade(trade) = &case.call else {
        panic!("another call");
    };
    let [group, band, side] = [trade.group, trade.band, trade.side].map(usize::from);
    let least = second::least_trade(&case.book, &trade.table, group, band, side, trade.limit);
    let [number, row, _, found, amount] = least.entries();
    [number, row, found, amount]
}

/// The least amounts, where there are any, of calls that are not refused.
#[cfg(test)]
pub fn amounts(cases: &[Case]) -> Vec<Option<u64>> {
    let amount = |case: &Case| {
        let [number, row, found, amount] = answer(case);
        assert_eq!([number, row], [0, 0]);
        (found == 1).then_some(amount)
    };
    cases.iter().map(amount).collect()
}
