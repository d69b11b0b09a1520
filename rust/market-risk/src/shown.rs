//! Answers as text: each figure in a line with its name, in currency units.

use crate::text::{mils, table, weighted, whole};
use crate::{CommodityLadder, InterestLadder, Options, Report, SmallBank};
use std::fmt::{Display, Formatter, Result};

/// Names and figures as lines, without an end of the last.
fn show(lines: Vec<(&str, String)>, out: &mut Formatter) -> Result {
    let cells = |(name, figure): (&str, String)| vec![name.to_string(), figure];
    let lines: Vec<_> = lines.into_iter().map(cells).collect();
    out.write_str(table(&lines).trim_end())
}

/// Names and charges, in mils.
fn charges(lines: impl IntoIterator<Item = (&'static str, u64)>) -> Vec<(&'static str, String)> {
    let charge = |(name, value)| (name, mils(value));
    lines.into_iter().map(charge).collect()
}

/// An amount in thousands, in currency units.
fn thousands(amount: u64) -> String {
    whole(1_000 * i128::from(amount))
}

/// The six charges and the total, as `market-risk report` prints them.
impl Display for Report {
    fn fmt(&self, out: &mut Formatter) -> Result {
        show(charges(self.named()), out)
    }
}

/// The three charges, as `market-risk small-bank` prints them.
impl Display for SmallBank {
    fn fmt(&self, out: &mut Formatter) -> Result {
        let lines = [
            ("foreign exchange", self.exchange),
            ("commodity", self.commodity),
            ("total", self.total),
        ];
        show(charges(lines), out)
    }
}

/// The weighted positions, to the tenth of a unit that they are exact to, and the charge.
impl Display for InterestLadder {
    fn fmt(&self, out: &mut Formatter) -> Result {
        let [zone_1, zone_2, zone_3] = self.zones;
        let lines = vec![
            ("gross", weighted(self.gross)),
            ("within bands", weighted(self.vertical)),
            ("within zone 1", weighted(zone_1)),
            ("within zone 2", weighted(zone_2)),
            ("within zone 3", weighted(zone_3)),
            ("zones 1 and 2", weighted(self.zones_1_2)),
            ("zones 2 and 3", weighted(self.zones_2_3)),
            ("zones 1 and 3", weighted(self.zones_1_3)),
            ("residual", weighted(self.residual)),
            ("charge", mils(self.charge)),
        ];
        show(lines, out)
    }
}

/// The amounts, which are whole thousands, and the charge.
impl Display for CommodityLadder {
    fn fmt(&self, out: &mut Formatter) -> Result {
        let lines = vec![
            ("matches", thousands(self.matches)),
            ("carried", thousands(self.carried)),
            ("residual", thousands(self.residual)),
            ("charge", mils(self.charge)),
        ];
        show(lines, out)
    }
}

/// The charges of the book of the deltas and their total, gamma and vega by class, and the whole charge.
impl Display for Options {
    fn fmt(&self, out: &mut Formatter) -> Result {
        let greeks = [
            ("gamma of equity", self.gamma.equity),
            ("gamma of foreign exchange", self.gamma.exchange),
            ("gamma of commodity", self.gamma.commodity),
            ("vega of equity", self.vega.equity),
            ("vega of foreign exchange", self.vega.exchange),
            ("vega of commodity", self.vega.commodity),
        ];
        let beside: i128 = greeks.iter().map(|(_, value)| i128::from(*value)).sum();
        let mut lines = charges(self.named().into_iter().chain(greeks));
        lines.push(("whole", mils(i128::from(self.total) + beside)));
        show(lines, out)
    }
}
