//! The lines of a least trade that is short. An amount in a band is a bond of it there: the second calculation
//! charges the book with that row.

use super::{amount, interest, mils};
use books::{Book, Row};
use second::{interest_band, interest_ladder};

/// A currency, the days and the coupon of a bond that is sold, and the limit in mils.
pub struct Short {
    pub group: usize,
    pub days: u16,
    pub coupon: u16,
    pub limit: u64,
}

impl Short {
    /// The options of the command. The limit is in whole currency units.
    pub fn options(&self) -> String {
        let (group, days, coupon) = (self.group, self.days, self.coupon);
        let limit = self.limit / 1_000;
        format!("--currency {group} --days {days} --coupon {coupon} --side short --limit {limit}")
    }

    /// A book with so much sold.
    fn sold(&self, book: &Book, amount: u32) -> Book {
        let mut book = book.clone();
        let bond = Row::default().with_kind(1).with_group(self.group as u8);
        let bond = bond.with_days(self.days).with_coupon(self.coupon);
        if amount > 0 {
            book.classes[0].push(bond.with_sides(0, amount));
        }
        book
    }
}

/// The lines of a least trade, which must be above 0.
pub fn least_trade(book: &Book, table: &[u8], of: &Short) -> Vec<String> {
    let charge = |sold: u32| {
        let bytes = of.sold(book, sold).encode().unwrap();
        interest_ladder(&bytes, table, of.group).charge
    };
    let least = (0..=1_000_000).find(|sold| charge(*sold) <= of.limit);
    let least = least.unwrap();
    let limit = mils(of.limit);
    let [before, with, less] = [0, least, least - 1].map(|sold| mils(charge(sold)));
    let [sold, one_less] = [least, least - 1].map(|sold| amount(sold.into()));
    let (group, band) = (of.group, interest_band(of.days.into(), of.coupon.into()));
    let what = "thousands are the least that bring the charge within the limit";
    let mut lines = vec![
        format!("short in band {band} of currency {group}: {sold} {what}"),
        "".into(),
        format!("before {before} > {limit} limit"),
        format!("with short {sold} {with} <= {limit} limit"),
        format!("with short {one_less} {less} > {limit} limit"),
        "".into(),
        "the ladder before".into(),
    ];
    lines.extend(interest(book, table, group));
    let after = format!("the ladder with short {sold} in band {band}");
    lines.extend(["".into(), after]);
    lines.extend(interest(&of.sold(book, least), table, group));
    lines
}
