//! The options of a table by their underlyings, and what is bought and sold of each.

use books::options::OptionRow;
use std::collections::BTreeMap;

/// The options of each class and group that has some, in the order of the table.
pub fn underlyings(options: &[OptionRow]) -> BTreeMap<(u8, u8), Vec<OptionRow>> {
    let mut lists: BTreeMap<_, Vec<OptionRow>> = BTreeMap::new();
    for option in options {
        let own = lists.entry((option.class, option.group)).or_default();
        own.push(*option);
    }
    lists
}

/// What the options on one underlying come to on each side.
#[derive(Clone, Copy, Debug, Default, PartialEq, Eq)]
pub struct Sides {
    pub class: u8,
    pub group: u8,
    pub bought: i64,
    pub sold: i64,
    /// How many options have an odd number.
    pub odd: usize,
    /// Whether one of delta 0 counts.
    pub without_delta: bool,
}

impl Sides {
    /// What is bought less what is sold.
    pub fn net(&self) -> i64 {
        self.bought - self.sold
    }

    /// Whether bought and sold options meet.
    pub fn meet(&self) -> bool {
        self.bought > 0 && self.sold > 0
    }

    /// Counts the number of an option.
    fn add(&mut self, option: &OptionRow, number: i64) {
        match option.right {
            0 | 1 => self.bought += number,
            _ => self.sold += number,
        }
        self.odd += (number % 2) as usize;
        self.without_delta |= option.delta == 0 && number > 0;
    }
}

/// The impact of an option's gamma, in half mils.
pub fn impact(option: &OptionRow) -> i64 {
    let moved = if option.class == 4 { 15 } else { 8 };
    moved * moved * i64::from(option.amount) * i64::from(option.gamma)
}

/// What an option's vega comes to, in mils.
pub fn shift(option: &OptionRow) -> i64 {
    2_500 * i64::from(option.vega) * i64::from(option.volatility)
}

/// The sides of each underlying of a table, by a number of each option.
pub fn sides(options: &[OptionRow], number: fn(&OptionRow) -> i64) -> Vec<Sides> {
    let lists = underlyings(options).into_iter();
    let one = |((class, group), own): ((u8, u8), Vec<OptionRow>)| {
        let mut sides = Sides {
            class,
            group,
            ..Sides::default()
        };
        own.iter()
            .for_each(|option| sides.add(option, number(option)));
        sides
    };
    lists.map(one).collect()
}

#[cfg(test)]
mod tests {
    use super::*;

    /// Catches a side that is told by call or put, and a class or group that is another's.
    #[test]
    fn bought_and_sold_are_kept_apart() {
        let option = |class, group, right, delta| OptionRow {
            class,
            group,
            right,
            delta,
            amount: 3,
            gamma: 5,
            vega: 7,
            volatility: 11,
            ..OptionRow::default()
        };
        let options = [
            option(4, 2, 0, 1),
            option(4, 2, 1, 1),
            option(4, 2, 2, 0),
            option(3, 2, 3, 1),
        ];
        let currency = Sides {
            class: 3,
            group: 2,
            sold: 15 * 64,
            ..Sides::default()
        };
        let commodity = Sides {
            class: 4,
            group: 2,
            bought: 2 * 15 * 225,
            sold: 15 * 225,
            odd: 3,
            without_delta: true,
        };
        assert_eq!(sides(&options, impact), [currency, commodity]);
        assert_eq!([currency.net(), commodity.net()], [-15 * 64, 15 * 225]);
        assert!(!currency.meet() && commodity.meet());
        let nets: Vec<i64> = sides(&options, shift).iter().map(Sides::net).collect();
        assert_eq!(nets, [-77 * 2_500, 77 * 2_500]);
    }
}
