//! What a currency's ladder costs as an amount is added to one side of a band, calculated here.

use super::asked::Asked;
use crate::ladder::bands::ZONES;
use crate::ladder::steps::{amounts, charge, steps, weigh, Sides};
use books::Row;
use market_risk::{Side, Table};
use std::collections::BTreeSet;

/// The largest amount that may be added, in thousands.
pub const MOST: u64 = 1_000_000;

/// How many amounts are looked at beside those where the charge may turn.
const STEPS: u64 = 1_000;

/// The amounts of a currency's bands, and where more is added.
pub struct Curve<'a> {
    amounts: [Sides; 15],
    table: &'a Table,
    band: usize,
    side: Side,
}

impl Curve<'_> {
    /// The curve of what is asked for, whose band must be one.
    pub fn new<'a>(rows: &[Row], asked: &Asked, table: &'a Table) -> Curve<'a> {
        Curve {
            amounts: amounts(rows, asked.group),
            table,
            band: asked.band as usize,
            side: asked.side,
        }
    }

    /// The amounts of the bands with more added.
    pub fn amounts(&self, added: u64) -> [Sides; 15] {
        let mut amounts = self.amounts;
        let sides = &mut amounts[self.band];
        match self.side {
            Side::Long => sides.0 += i128::from(added),
            Side::Short => sides.1 += i128::from(added),
        }
        amounts
    }

    /// The charge with so much added, in mils.
    pub fn charge(&self, added: u64) -> i128 {
        let bands = weigh(&self.amounts(added), self.table);
        let (steps, rest) = steps(&bands, &self.table.per_cents());
        charge(&steps, rest)
    }

    /// The weighted nets that may change their sign: that of the band, and those of its zone with none, one
    /// or both of the other zones.
    fn nets(&self) -> [i128; 5] {
        let nets = weigh(&self.amounts, self.table).map(|(long, short)| long - short);
        let zone = |zone: usize| nets[ZONES[zone].clone()].iter().sum::<i128>();
        let own = (0..3).find(|zone| ZONES[*zone].contains(&self.band));
        let own = own.expect("a band lies in a zone");
        let [one, two] = [zone((own + 1) % 3), zone((own + 2) % 3)];
        let alone = zone(own);
        [
            nets[self.band],
            alone,
            alone + one,
            alone + two,
            alone + one + two,
        ]
    }

    /// The whole amounts at each place where a net changes its sign, and so the charge its slope. Between
    /// two such places the charge runs straight.
    pub fn turns(&self) -> Vec<u64> {
        let weight = i128::from(self.table.weights()[self.band]);
        let against = |net: i128| match self.side {
            Side::Long => -net,
            Side::Short => net,
        };
        let nets = self.nets().map(against);
        let met = nets.into_iter().filter(|net| *net > 0 && weight > 0);
        met.map(|net| (net / weight) as u64)
            .flat_map(|amount| [amount, amount + 1])
            .collect()
    }

    /// Amounts from 0 to a last one, of which one is within a limit if any amount to the last is: both ends
    /// and the turns. Beside them stand others in equal steps, in case the turns are wrong.
    pub fn looked_at(&self, last: u64) -> BTreeSet<u64> {
        let even = (0..=STEPS).map(|step| last * step / STEPS);
        let turns = self.turns().into_iter().filter(|turn| *turn <= last);
        even.chain(turns).collect()
    }

    /// The amount of the lowest charge, the least of several.
    pub fn lowest(&self) -> u64 {
        let amounts = self.looked_at(MOST).into_iter();
        let lowest = amounts.min_by_key(|amount| (self.charge(*amount), *amount));
        lowest.expect("0 is looked at")
    }
}

#[cfg(test)]
mod tests;
