//! Least trades with three zones in use: every mix of sides, sizes in two orders, trades in each zone, and all bands
//! at once. The limits are what some amounts cost by the second calculation, and a mil less.

use super::build::{only, row, Case};
use super::least_trade_build::{Place, DAYS};
use super::loaded::with_per_cents;
use books::Row;

/// One row in each zone of currency 21, weighted 5,250 once, twice and three times under document 01's table.
fn zones(sizes: [i64; 3], sides: usize) -> Vec<u8> {
    let places = [(270, 75), (900, 30), (6_000, 10)];
    let rows = [0, 1, 2].map(|zone: usize| {
        let (days, amount) = places[zone];
        let side = if sides >> zone & 1 == 0 { 1 } else { -1 };
        row(21, 1, days, 800, side * sizes[zone] * amount)
    });
    only(0, &rows)
}

/// Some amounts, at which a zone or two are used up.
const AMOUNTS: [u64; 9] = [0, 3, 10, 30, 42, 60, 75, 150, 225];

/// The amount among these that costs the least; of equal ones the greatest, so that others must be passed over.
fn cheapest(place: &Place) -> u64 {
    let by_cost = |amount: &&u64| place.charge(**amount);
    *AMOUNTS.iter().rev().min_by_key(by_cost).expect("amounts")
}

/// What the cheapest amount costs, and halfway to it from 0, where something helps.
fn to_the_cheapest(place: &Place) -> Vec<Case> {
    let [first, last] = [0, cheapest(place)].map(|amount| place.charge(amount));
    match first > last {
        true => [last, last + (first - last) / 2]
            .map(|limit| place.case(limit))
            .to_vec(),
        false => vec![],
    }
}

/// The bands that a trade is added to: one that has a row, or another of the same zone.
fn band(turn: usize) -> u16 {
    [3, 5, 11, 1, 4, 13][turn % 6]
}

/// Every mix of sides and two orders of sizes, with trades on both sides, in the bands in turn, under a table that
/// is document 01's, one where adjacent zones match for nothing, or one with per cents of each its own.
fn mixes() -> Vec<Case> {
    let tables = [
        second::table().to_vec(),
        with_per_cents([0, 0, 0, 0, 0, 100]).encode(),
        with_per_cents([3, 5, 11, 7, 13, 17]).encode(),
    ];
    let mut cases = Vec::new();
    let mut turn = 0;
    for sizes in [[1, 2, 3], [3, 1, 2]] {
        for sides in 0..8 {
            for side in [0, 1] {
                let table = &tables[[0, 0, 1, 2][turn / 2 % 4]];
                let place = Place::new(&zones(sizes, sides), 21, band(turn), side).by(table);
                cases.extend(to_the_cheapest(&place));
                turn += 1;
            }
        }
    }
    cases
}

/// E3, in which an amount in each zone is the only one within a limit, and no amount is within a mil less.
fn only_one() -> Vec<Case> {
    let place = |band| Place::new(&zones([1, 1, 1], 2), 21, band, 1);
    let only = [(5, 30), (4, 42), (11, 10)].map(|(band, amount)| place(band).around(amount));
    only.concat()
}

/// Long in zone 1, short in zones 2 and 3, under a table with 40% in zone 2, and longs added to zone 2: what is saved
/// by matching within the zone is lost between zones, until zone 2 is long and matches zone 3.
fn flat() -> Vec<Case> {
    let rows = [(270, 75), (900, -30), (6_000, -30)];
    let rows = rows.map(|(days, net)| row(21, 1, days, 800, net));
    let mut table = second::table();
    table[32] = 40;
    let place = Place::new(&only(0, &rows), 21, 4, 0).by(&table);
    let limits = [1_785_000, 1_784_999, 1_350_000, 1_155_000, 1_154_999];
    limits.map(|limit| place.case(limit)).to_vec()
}

/// A row in each of the fifteen bands of currency 12, on both sides in turn.
fn every_band() -> Vec<u8> {
    let net = |band: i64| (40 + 7 * band) * [1, -2, 3, -1][band as usize % 4];
    let rows = DAYS.iter().zip(0..);
    let rows: Vec<Row> = rows
        .map(|(days, band)| row(12, 2, *days, 299, net(band)))
        .collect();
    only(0, &rows)
}

/// All bands in use, and trades in some of them on both sides.
fn whole_ladders() -> Vec<Case> {
    let book = every_band();
    let mut cases = Vec::new();
    for band in [2, 4, 6, 7, 10, 14] {
        for side in [0, 1] {
            cases.extend(to_the_cheapest(&Place::new(&book, 12, band, side)));
        }
    }
    cases
}

/// All of them.
pub fn cases() -> Vec<Case> {
    [mixes(), only_one(), flat(), whole_ladders()].concat()
}

#[cfg(test)]
mod tests {
    use super::super::least_trade_build::amounts;
    use super::*;
    use std::collections::BTreeSet;

    /// Zones 1 and 2 match 5,250 at 40%. A short of band 5 then matches zone 3 at 40%, 10,500 less a unit, and one of
    /// band 4 7,500 less; one of band 11 matches within its band at 10%, 47,250 less.
    #[test]
    fn e3_by_hand() {
        let charges = [(5, 30), (4, 42), (11, 10)]
            .map(|(band, amount)| Place::new(&zones([1, 1, 1], 2), 21, band, 1).charge(amount));
        assert_eq!(charges, [420_000, 420_000, 262_500]);
        let found = amounts(&only_one());
        let expected = [30, 42, 10].map(|amount| [Some(amount), None, Some(amount)]);
        assert_eq!(found, expected.concat());
    }

    /// Catches a search that stops where the charge no longer falls: 42 units cost as much as none, 5,250 at 40% and
    /// 15,750 at 100%, and each of 84 more 7,500 less.
    #[test]
    fn a_charge_that_stays_and_falls_by_hand() {
        let expected = [Some(0), Some(43), Some(100), Some(126), None];
        assert_eq!(amounts(&flat()), expected);
    }

    /// Catches cases that are none, or within their limit as they stand, and amounts that are all alike.
    #[test]
    fn amounts_are_of_all_sizes() {
        let stored = [mixes(), whole_ladders()].concat();
        let found: Vec<u64> = amounts(&stored).into_iter().flatten().collect();
        assert_eq!(found.len(), stored.len());
        assert!(found.iter().all(|amount| *amount > 0));
        let different: BTreeSet<&u64> = found.iter().collect();
        assert!(different.len() > 15, "{different:?}");
    }

    /// Catches zones that are not used: each place has its rows in three.
    #[test]
    fn three_zones_are_used() {
        for case in [mixes(), whole_ladders()].concat() {
            let group = usize::from(case.book[8]);
            assert_eq!(second::zones_used(&case.book, group), [true; 3]);
        }
    }
}
