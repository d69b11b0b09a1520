//! What a unit of amount costs at most in each class, by document 01.

use books::Row;

/// The rate of a class, in mils for a unit of amount.
pub struct Rate {
    pub name: &'static str,
    pub class: usize,
    pub specific: i128,
    pub general: i128,
    /// A row that costs so much for each unit of its amount, which it has not yet.
    pub dearest: Row,
}

impl Rate {
    /// Specific and general risk together.
    pub fn both(&self) -> i128 {
        self.specific + self.general
    }

    /// That row, long with an amount.
    pub fn row(&self, amount: u32) -> Row {
        self.dearest.with_sides(amount, 0)
    }
}

/// A row of which a kind and days are given.
const fn row(kind: u8, days: u16) -> Row {
    Row {
        group: 0,
        kind,
        days,
        coupon: 0,
        issue: 0,
        long: 0,
        short: 0,
    }
}

/// The rates, by class. A basis point of a unit is 100 mils.
pub const RATES: [Rate; 4] = [
    // Other paper: 800 specific. Past 7,200 days at a coupon below 300: 1,250 and never more, since a
    // match costs at most what is matched.
    Rate {
        name: "interest",
        class: 0,
        specific: 80_000,
        general: 125_000,
        dearest: row(3, 36_000),
    },
    // An ordinary share: 800 specific, and 8% of the net.
    Rate {
        name: "equity",
        class: 1,
        specific: 80_000,
        general: 80_000,
        dearest: row(1, 0),
    },
    // 8% of the net.
    Rate {
        name: "foreign exchange",
        class: 2,
        specific: 0,
        general: 80_000,
        dearest: row(0, 0),
    },
    // Stock on hand: 15% of what is left, and 0.6% for each of six steps that it is carried.
    Rate {
        name: "commodity",
        class: 3,
        specific: 0,
        general: 186_000,
        dearest: row(0, 0),
    },
];
