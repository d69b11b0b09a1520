//! Random option tables of a seed, as they are and damaged.

use super::build::{options, Case};
use super::options_build::{length, table};
use books::options::OptionRow;
use books::Random;

/// How many random tables there are.
pub const TABLES: u64 = 50;

/// Days at the ends of the bands of commodities.
const DAYS: [u16; 8] = [0, 30, 31, 360, 361, 1_080, 1_081, 36_000];

/// A figure of two bytes: mostly small, so that sums meet, and sometimes at an end.
fn figure(random: &mut Random) -> u16 {
    match random.below(5) {
        0 => random.pick(&[0, 1, 65_535]),
        _ => random.below(400) as u16,
    }
}

/// An option that is taken, on one of few underlyings.
fn option(random: &mut Random) -> OptionRow {
    let class = 2 + random.below(3) as u8;
    let share = 1 + random.below(3) as u8;
    OptionRow {
        class,
        group: random.pick(&[0, 3, 31]),
        right: random.below(4) as u8,
        kind: if class == 2 { share } else { 0 },
        amount: match random.below(4) {
            0 => random.pick(&[1, 2, 9_999, 10_001, 999_999, 1_000_000]),
            1 => 1 + random.below(1_000_000) as u32,
            _ => 1 + random.below(1_000) as u32,
        },
        delta: match random.below(6) {
            0 => 0,
            1 => random.pick(&[1, 9_999, 10_000]),
            _ => random.below(10_001) as u16,
        },
        gamma: figure(random),
        vega: figure(random),
        volatility: figure(random),
        days: if class == 4 { random.pick(&DAYS) } else { 0 },
    }
}

/// Cuts or lengthens a table, changes its count, or a byte of a field that has a range.
fn damage(random: &mut Random, bytes: &mut Vec<u8>) {
    match random.below(6) {
        0 => bytes.truncate(random.below(bytes.len() as u64) as usize),
        1 => bytes.extend(vec![1; random.pick(&[1, 16, 18])]),
        2 => bytes[random.below(2) as usize] ^= 1 + random.below(255) as u8,
        _ => {
            let row = random.below(bytes.len() as u64 / 18) as usize;
            let at = random.pick(&[0, 1, 2, 3, 6, 7, 9, 17]);
            bytes[2 + 18 * row + at] = random.pick(&[0, 1, 4, 32, 141, 255]);
        }
    }
}

/// A call of a random table, damaged one time in three, with an output that is at times a little too short.
fn call(seed: u64, number: u64) -> Case {
    let mut random = Random::of_case(seed, 9_000 + number);
    let rows: Vec<OptionRow> = (0..1 + random.below(10))
        .map(|_| option(&mut random))
        .collect();
    let mut bytes = table(&rows);
    if random.once_in(3) {
        damage(&mut random, &mut bytes);
    }
    let exact = length(&rows);
    let room = match random.once_in(5) {
        true => exact - 1 - random.below(8) as usize,
        false => exact + random.below(20) as usize,
    };
    options(&bytes, room)
}

/// All of them.
pub fn cases(seed: u64) -> Vec<Case> {
    (0..TABLES).map(|number| call(seed, number)).collect()
}

#[cfg(test)]
mod tests {
    use super::super::options_build::refusal;
    use super::*;

    /// Catches random tables that are all taken, or all refused for one reason.
    #[test]
    fn random_tables_are_of_all_sorts() {
        let numbers: Vec<u64> = cases(1).iter().map(|case| refusal(case)[0]).collect();
        let of = |number: u64| numbers.iter().filter(|seen| **seen == number).count();
        let counts = [0, 12, 16, 17].map(of);
        assert!(counts.iter().all(|count| *count > 2), "{counts:?}");
        assert!(counts[0] > 20, "{counts:?}");
    }

    /// Catches options that never meet: in each class gamma must be nothing of some tables and something of
    /// others, and vega of some less than its options have one by one.
    #[test]
    fn bought_and_sold_options_meet() {
        let mut seen = [[false; 3]; 3];
        for case in cases(1).iter().filter(|case| refusal(case) == [0, 0]) {
            let priced = second::options(&case.book, &mut [0; 200]);
            let rows = books::options::decode(&case.book).unwrap();
            for (class, seen) in (0..3).zip(&mut seen) {
                let own = rows
                    .iter()
                    .filter(|row| usize::from(row.class) == 2 + class);
                let vega = |row: &OptionRow| u64::from(row.vega) * u64::from(row.volatility);
                let alone: u64 = own.map(vega).sum();
                seen[0] |= priced.gammas[class] == 0 && alone > 0;
                seen[1] |= priced.gammas[class] > 0;
                seen[2] |= priced.vegas[class] < 2_500 * alone;
            }
        }
        assert_eq!(seen, [[true; 3]; 3]);
    }
}
