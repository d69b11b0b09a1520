//! Random tables of the interest ladder: accepted, refused for one condition alone, and of a
//! wrong length.

use super::{Table, BANDS, TABLE_BYTES};
use crate::Random;

/// The greatest weight, and the greatest per cent.
const MOST_WEIGHT: u16 = 2_000;
const MOST_PER_CENT: u8 = 100;

/// The ways in which a table can be refused for one condition alone: a weight that falls; one
/// above 2,000; vertical above zone 1, 2 or 3; zone 1, 2 or 3 above adjacent; adjacent above
/// 1-3; 1-3 above 100.
pub const WAYS: usize = 10;

/// Weights that never fall: any, few, equal ones, or one step at a band.
fn weights(random: &mut Random) -> [u16; BANDS] {
    let edge = |random: &mut Random| random.pick(&[0, 1, 1_999, MOST_WEIGHT]);
    let any = |random: &mut Random, most: u16| random.below(u64::from(most) + 1) as u16;
    let mut weights = match random.below(6) {
        0 => [edge(random); BANDS],
        1 => {
            let (pair, band) = ([edge(random), edge(random)], random.below(16) as usize);
            std::array::from_fn(|at| pair[usize::from(at >= band)])
        }
        2 => [(); BANDS].map(|()| any(random, 20)),
        _ => [(); BANDS].map(|()| any(random, MOST_WEIGHT)),
    };
    weights.sort_unstable();
    weights
}

/// Per cents in their order: any, at the ends, equal ones, or 1-3 far above the others, as in
/// document 01. The zones are in any order.
fn per_cents(random: &mut Random) -> [u8; 6] {
    let any = |random: &mut Random, most: u8| random.below(u64::from(most) + 1) as u8;
    let edge = |random: &mut Random| random.pick(&[0, 1, 99, MOST_PER_CENT]);
    let mut per_cents = match random.below(6) {
        0 => [edge(random); 6],
        1 => [(); 6].map(|()| edge(random)),
        2 | 3 => [(); 6].map(|()| any(random, MOST_PER_CENT)),
        _ => {
            let low = [(); 5].map(|()| any(random, 40));
            let [vertical, zone_1, zone_2, zone_3, adjacent] = low;
            let far = MOST_PER_CENT - any(random, 40);
            [vertical, zone_1, zone_2, zone_3, adjacent, far]
        }
    };
    per_cents.sort_unstable();
    random.shuffle(&mut per_cents[1..4]);
    per_cents
}

/// An accepted table that favours the limits.
pub fn accepted(random: &mut Random) -> Table {
    let weights = weights(random);
    let [vertical, zone_1, zone_2, zone_3, adjacent, zones_1_3] = per_cents(random);
    Table {
        weights,
        vertical,
        zones: [zone_1, zone_2, zone_3],
        adjacent,
        zones_1_3,
    }
}

/// Makes the weight of a band after the first one below that of the band before.
fn fall(random: &mut Random, weights: &mut [u16; BANDS]) {
    let band = 1 + random.below(BANDS as u64 - 1) as usize;
    weights[band] = weights[band].min(MOST_WEIGHT - 1);
    weights[band - 1] = weights[band] + 1;
}

/// An accepted table with one condition broken by one: all others hold.
pub fn broken(random: &mut Random, way: usize) -> Table {
    let mut table = accepted(random);
    let below_most = MOST_PER_CENT - 1;
    match way {
        0 => fall(random, &mut table.weights),
        1 => table.weights[random.below(BANDS as u64) as usize..].fill(MOST_WEIGHT + 1),
        2..=4 => {
            let zone = table.zones[way - 2].min(below_most);
            table.vertical = zone + 1;
            table.zones = table.zones.map(|other| other.max(zone + 1));
            table.zones[way - 2] = zone;
            table.adjacent = table.adjacent.max(zone + 1);
            table.zones_1_3 = table.zones_1_3.max(zone + 1);
        }
        5..=7 => {
            table.adjacent = table.adjacent.min(below_most);
            table.zones = table.zones.map(|other| other.min(table.adjacent));
            table.zones[way - 5] = table.adjacent + 1;
            table.vertical = table.vertical.min(table.adjacent);
        }
        8 => {
            table.zones_1_3 = table.zones_1_3.min(below_most);
            table.adjacent = table.zones_1_3 + 1;
        }
        _ => table.zones_1_3 = MOST_PER_CENT + 1,
    }
    table
}

/// The bytes of an accepted table with one of them one higher or lower: accepted or not.
pub fn nudged(random: &mut Random) -> Vec<u8> {
    let mut bytes = accepted(random).encode();
    let at = random.below(TABLE_BYTES as u64) as usize;
    bytes[at] = match random.once_in(2) {
        true => bytes[at].wrapping_add(1),
        false => bytes[at].wrapping_sub(1),
    };
    bytes
}

/// The bytes of a table of any length but 36, one byte off it or far.
pub fn of_wrong_length(random: &mut Random) -> Vec<u8> {
    let length = match random.below(4) {
        0 => random.below(TABLE_BYTES as u64) as usize,
        1 => TABLE_BYTES + 1 + random.below(64) as usize,
        _ => random.pick(&[0, 30, 35, 37, 72]),
    };
    let way = random.below(4 * WAYS as u64) as usize;
    let table = match way < WAYS {
        true => broken(random, way),
        false => accepted(random),
    };
    table.encode().into_iter().cycle().take(length).collect()
}

#[cfg(test)]
mod tests {
    use super::*;

    /// Which conditions a table breaks, by ways.
    fn breaks(table: &Table) -> [bool; WAYS] {
        let Table {
            weights,
            vertical,
            zones,
            adjacent,
            zones_1_3,
        } = *table;
        let mut breaks = [false; WAYS];
        breaks[0] = weights.windows(2).any(|pair| pair[0] > pair[1]);
        breaks[1] = weights.iter().any(|weight| *weight > 2_000);
        for (at, zone) in zones.into_iter().enumerate() {
            (breaks[2 + at], breaks[5 + at]) = (vertical > zone, zone > adjacent);
        }
        (breaks[8], breaks[9]) = (adjacent > zones_1_3, zones_1_3 > 100);
        breaks
    }

    /// Catches tables that are not accepted, and limits that are never reached.
    #[test]
    fn accepted_tables_break_nothing_and_reach_every_limit() {
        let tables: Vec<Table> = (0..3_000)
            .map(|case| accepted(&mut Random::of_case(1, case)))
            .collect();
        assert!(tables.iter().all(|table| breaks(table) == [false; WAYS]));
        let some = |what: fn(&Table) -> bool| tables.iter().filter(|table| what(table)).count();
        assert!(some(|table| table.weights == [0; BANDS]) > 20);
        assert!(some(|table| table.weights == [2_000; BANDS]) > 20);
        assert!(some(|table| table.zones_1_3 == 0) > 20);
        assert!(some(|table| table.vertical == 100) > 20);
        assert!(some(|table| table.zones[0] > table.zones[2]) > 500);
        assert!(some(|table| table.zones[0] < table.zones[2]) > 500);
        assert!(some(|table| table.adjacent < table.zones_1_3) > 1_000);
    }

    /// Catches a way that breaks more than its own condition, or breaks it by more than one.
    #[test]
    fn each_way_breaks_one_condition_by_one() {
        for (way, case) in (0..WAYS).flat_map(|way| (0..300).map(move |case| (way, case))) {
            let table = broken(&mut Random::of_case(2, case), way);
            let mut expected = [false; WAYS];
            expected[way] = true;
            assert_eq!(breaks(&table), expected, "{table:?}");
            let Table {
                zones, adjacent, ..
            } = table;
            let past = match way {
                0 => {
                    let pairs = table.weights.windows(2);
                    let falls = pairs.map(|pair| pair[0].saturating_sub(pair[1]));
                    falls.max().unwrap()
                }
                1 => table.weights[14] - 2_000,
                2..=4 => u16::from(table.vertical - zones[way - 2]),
                5..=7 => u16::from(zones[way - 5] - adjacent),
                8 => u16::from(adjacent - table.zones_1_3),
                _ => u16::from(table.zones_1_3 - 100),
            };
            assert_eq!(past, 1, "{table:?}");
        }
    }

    /// Catches a band that never falls, or from which on no weight is ever too high.
    #[test]
    fn every_band_is_broken() {
        let (mut falls, mut high) = ([false; BANDS], [false; BANDS]);
        for case in 0..600 {
            let table = broken(&mut Random::of_case(3, case), 0);
            let band = (1..BANDS).find(|at| table.weights[at - 1] > table.weights[*at]);
            falls[band.unwrap()] = true;
            let table = broken(&mut Random::of_case(3, case), 1);
            let band = table.weights.iter().position(|weight| *weight > 2_000);
            high[band.unwrap()] = true;
        }
        assert_eq!(falls[1..], [true; BANDS - 1]);
        assert_eq!(high, [true; BANDS]);
    }

    #[test]
    fn wrong_lengths_are_next_to_36_and_far() {
        let lengths: Vec<usize> = (0..400)
            .map(|case| of_wrong_length(&mut Random::of_case(4, case)).len())
            .collect();
        assert!(!lengths.contains(&36));
        for length in [0, 30, 35, 37, 72] {
            assert!(lengths.contains(&length), "{length}");
        }
    }
}
