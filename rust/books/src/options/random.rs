//! Random option tables that are accepted and favour the edges.

use super::{OptionRow, MOST_OPTIONS};
use crate::Random;

/// The last days of the bands of commodities and those after them, and the ends of the range.
const EDGE_DAYS: [u16; 16] = [
    0, 1, 30, 31, 90, 91, 180, 181, 360, 361, 720, 721, 1_080, 1_081, 35_999, 36_000,
];

/// What the options of random tables are drawn from.
#[derive(Clone, Debug)]
pub struct Shape {
    classes: Vec<u8>,
    groups: Vec<u8>,
    rights: Vec<u8>,
}

impl Shape {
    /// A shape of one class or all, mostly of few groups, so that bought and sold options meet; now and
    /// then all are bought, or all sold.
    pub fn new(random: &mut Random) -> Shape {
        let only = random.below(6) as u8;
        let classes = match only {
            0..=2 => vec![2 + only],
            _ => vec![2, 3, 4],
        };
        let groups = match random.below(8) {
            0 => (0..32).collect(),
            1 => vec![0, 31],
            2..=4 => vec![random.below(32) as u8],
            _ => (0..2).map(|_| random.below(32) as u8).collect(),
        };
        let rights = match random.below(8) {
            0 => vec![0, 1],
            1 => vec![2, 3],
            _ => vec![0, 1, 2, 3],
        };
        Shape {
            classes,
            groups,
            rights,
        }
    }
}

/// An amount from 1 to 1,000,000: mostly small.
fn amount(random: &mut Random) -> u32 {
    match random.below(8) {
        0 => random.pick(&[1, 2, 999_999, 1_000_000]),
        1 => 1 + random.below(1_000_000) as u32,
        2 => random.pick(&[255, 256, 5_000, 10_000, 65_535, 65_536]),
        _ => 1 + random.below(100) as u32,
    }
}

/// A delta from 0 to 10,000: every sixth time none.
fn delta(random: &mut Random) -> u16 {
    match random.below(6) {
        0 => 0,
        1 | 2 => random.pick(&[1, 2, 255, 256, 4_999, 5_000, 5_001, 9_999, 10_000]),
        _ => random.below(10_001) as u16,
    }
}

/// A gamma, vega or volatility, which have no limit: mostly small.
fn any(random: &mut Random) -> u16 {
    match random.below(6) {
        0 => random.pick(&[0, 0, 1, 255, 256, 32_768, 65_535]),
        1 => random.draw() as u16,
        _ => random.below(30) as u16,
    }
}

/// Days of a commodity, mostly at a band's end or one day past it.
fn days(random: &mut Random) -> u16 {
    match random.below(6) {
        0 => random.below(36_001) as u16,
        1 => random.below(1_200) as u16,
        _ => random.pick(&EDGE_DAYS),
    }
}

/// An option of a shape.
pub fn option(random: &mut Random, shape: &Shape) -> OptionRow {
    let class = random.pick(&shape.classes);
    OptionRow {
        class,
        group: random.pick(&shape.groups),
        right: random.pick(&shape.rights),
        kind: if class == 2 {
            1 + random.below(3) as u8
        } else {
            0
        },
        amount: amount(random),
        delta: delta(random),
        gamma: any(random),
        vega: any(random),
        volatility: any(random),
        days: if class == 4 { days(random) } else { 0 },
    }
}

/// An option that is sold where another is bought, and bought where it is sold, so that their sums meet;
/// mostly with one number of it a little more.
fn opposite(random: &mut Random, option: OptionRow) -> OptionRow {
    let mut other = OptionRow {
        right: (option.right + 2 + random.below(2) as u8) % 4,
        ..option
    };
    match random.below(5) {
        0 => other.gamma = other.gamma.saturating_add(1),
        1 => other.vega = other.vega.saturating_add(1),
        2 => other.volatility = other.volatility.saturating_add(1),
        3 => other.amount = other.amount.saturating_sub(1).max(1),
        _ => (),
    }
    other
}

/// So many options of a shape; every fifth is opposite to one before it.
pub fn table(random: &mut Random, shape: &Shape, count: usize) -> Vec<OptionRow> {
    let mut options: Vec<OptionRow> = Vec::with_capacity(count);
    for at in 0..count {
        let next = match at > 0 && random.once_in(5) {
            true => {
                let before = random.pick(&options);
                opposite(random, before)
            }
            false => option(random, shape),
        };
        options.push(next);
    }
    options
}

/// How many options a table has: mostly few, rarely as many as may be.
pub fn size(random: &mut Random) -> usize {
    match random.below(160) {
        0 => random.pick(&[MOST_OPTIONS, MOST_OPTIONS, MOST_OPTIONS - 1]),
        1..=8 => 10 + random.below(60) as usize,
        9..=20 => 0,
        21..=50 => 1,
        _ => 2 + random.below(7) as usize,
    }
}

#[cfg(test)]
mod tests {
    use super::*;

    /// The options of many random tables.
    fn many() -> Vec<OptionRow> {
        let tables = (0..600).map(|case| {
            let mut random = Random::of_case(1, case);
            let shape = Shape::new(&mut random);
            table(&mut random, &shape, 9)
        });
        tables.flatten().collect()
    }

    /// Catches an option that would be refused.
    #[test]
    fn options_are_within_their_ranges() {
        for option in many() {
            let class = usize::from(option.class);
            let kinds = [&[1, 2, 3][..], &[0], &[0]][class - 2];
            let days = [0, 0, 36_000][class - 2];
            assert!(kinds.contains(&option.kind), "{option:?}");
            assert!(option.group < 32 && option.right < 4 && option.days <= days);
            assert!((1..=1_000_000).contains(&option.amount) && option.delta <= 10_000);
        }
    }

    /// Catches an end of a field that never comes up, and a class or a right that is rare.
    #[test]
    fn every_field_reaches_its_ends() {
        let options = many();
        let some = |wanted: &dyn Fn(&OptionRow) -> bool| {
            let found = options.iter().filter(|option| wanted(option)).count();
            assert!(found > 8, "{found}");
        };
        (2..5).for_each(|class| some(&|option| option.class == class));
        (0..4).for_each(|right| some(&|option| option.right == right));
        (0..4).for_each(|kind| some(&|option| option.kind == kind));
        for (group, amount) in [(0, 1), (31, 1_000_000)] {
            some(&|option| option.group == group);
            some(&|option| option.amount == amount);
        }
        for delta in [0, 1, 9_999, 10_000] {
            some(&|option| option.delta == delta);
        }
        for days in [0, 1, 30, 31, 1_080, 1_081, 36_000] {
            some(&|option| option.class == 4 && option.days == days);
        }
        for number in [0, 1, 255, 65_535] {
            some(&|option| option.gamma == number);
            some(&|option| option.vega == number);
            some(&|option| option.volatility == number);
        }
    }

    /// Catches options that never meet one of the other side, or all meet.
    #[test]
    fn bought_and_sold_options_meet_in_a_group() {
        let (mut meet, mut apart) = (0, 0);
        for case in 0..200 {
            let mut random = Random::of_case(2, case);
            let shape = Shape::new(&mut random);
            let options = table(&mut random, &shape, 5);
            let own = |one: &OptionRow, other: &OptionRow| {
                (one.class, one.group) == (other.class, other.group)
            };
            let met = options.iter().any(|one| {
                let mut others = options.iter().filter(|other| own(one, other));
                others.any(|other| one.right < 2 && other.right >= 2)
            });
            meet += usize::from(met);
            apart += usize::from(!met);
        }
        assert!(meet > 80 && apart > 20, "{meet} and {apart}");
    }

    #[test]
    fn tables_of_every_size_come_up() {
        let mut random = Random::new(3);
        let sizes: Vec<usize> = (0..4_000).map(|_| size(&mut random)).collect();
        let wanted = [0..=0, 1..=1, 2..=8, 10..=69, 999..=999, 1_000..=1_000];
        for wanted in wanted {
            let found = sizes.iter().filter(|size| wanted.contains(*size)).count();
            assert!(found > 3, "{wanted:?}: {found}");
        }
        assert!(sizes.iter().all(|size| *size <= MOST_OPTIONS));
    }
}
