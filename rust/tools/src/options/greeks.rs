//! Gamma and vega of options, calculated here: of each underlying, and of a class together.

use books::options::names::underlying;
use books::options::OptionRow;
use std::collections::BTreeMap;
use std::ops::AddAssign;

/// An underlying: the class and the group of its options.
pub type Underlying = (u8, u8);

/// What gamma and vega cost, in mils.
#[derive(Clone, Copy, Debug, Default, PartialEq, Eq)]
pub struct Greeks {
    pub gamma: i128,
    pub vega: i128,
}

impl AddAssign for Greeks {
    fn add_assign(&mut self, other: Greeks) {
        self.gamma += other.gamma;
        self.vega += other.vega;
    }
}

/// The sum of a figure over options: what was bought less what was sold.
fn signed(options: &[OptionRow], figure: impl Fn(&OptionRow) -> u64) -> i128 {
    let signed = |option: &OptionRow| match option.right < 2 {
        true => i128::from(figure(option)),
        false => -i128::from(figure(option)),
    };
    options.iter().map(signed).sum()
}

/// Twice the impact of an option's gamma, in mils: of a move of 8%, in commodities 15%.
fn twice_gamma(option: &OptionRow) -> u64 {
    let moved = if option.class == 4 { 15 } else { 8 };
    u64::from(option.amount) * u64::from(option.gamma) * moved * moved
}

/// An option's vega times its volatility.
fn vega(option: &OptionRow) -> u64 {
    u64::from(option.vega) * u64::from(option.volatility)
}

/// Gamma and vega of the options on one underlying: a gamma below zero is charged, and its last half
/// mil as a whole one; vega whichever sign it has, for a quarter of the volatility.
fn greeks_of(options: &[OptionRow]) -> Greeks {
    let sold = (-signed(options, twice_gamma)).max(0);
    Greeks {
        gamma: (sold + 1) / 2,
        vega: 2_500 * signed(options, vega).abs(),
    }
}

/// The options of a table by their underlyings, each in the order of the table.
pub fn by_underlying(options: &[OptionRow]) -> BTreeMap<Underlying, Vec<OptionRow>> {
    let mut groups: BTreeMap<Underlying, Vec<OptionRow>> = BTreeMap::new();
    for option in options {
        let underlying = (option.class, option.group);
        groups.entry(underlying).or_default().push(*option);
    }
    groups
}

/// Gamma and vega of the three classes, each of its underlyings together.
pub fn greeks(options: &[OptionRow]) -> [Greeks; 3] {
    let mut classes = [Greeks::default(); 3];
    for ((class, _), own) in by_underlying(options) {
        if let Some(class) = underlying(class) {
            classes[class - 1] += greeks_of(&own);
        }
    }
    classes
}

#[cfg(test)]
mod tests {
    use super::*;

    /// The option of C.4, 50 times, as another class and right.
    fn option(class: u8, right: u8) -> OptionRow {
        OptionRow {
            class,
            group: 5,
            right,
            kind: u8::from(class == 2),
            amount: 25_000,
            delta: 7_210,
            gamma: 170,
            vega: 84,
            volatility: 2_000,
            days: if class == 4 { 1_081 } else { 0 },
        }
    }

    /// What options cost that are of one class, and nothing elsewhere.
    fn cost(options: &[OptionRow]) -> (i128, i128) {
        let mut all = greeks(options);
        let own = std::mem::take(&mut all[usize::from(options[0].class) - 2]);
        assert_eq!(all, [Greeks::default(); 3]);
        (own.gamma, own.vega)
    }

    /// C.4: half of 25,000 x 170 x 225, and 84 x 2,000 x 2,500. Elsewhere the move is 8%: half of
    /// 25,000 x 170 x 64. Catches a positive gamma that is charged, and signs by call and put.
    #[test]
    fn sold_options_are_charged_for_gamma_and_all_for_vega() {
        for (class, gamma) in [(2, 136_000_000), (3, 136_000_000), (4, 478_125_000)] {
            for right in [0, 1] {
                assert_eq!(cost(&[option(class, right)]), (0, 420_000_000));
            }
            for right in [2, 3] {
                assert_eq!(cost(&[option(class, right)]), (gamma, 420_000_000));
            }
        }
    }

    /// Catches sums that are rounded or taken without a sign before they are added, and an option of
    /// delta 0 that is left out. 1 x 1 x 225 is an odd number of half mils.
    #[test]
    fn impacts_are_added_and_then_rounded_once() {
        let small = |right, amount, gamma, vega| OptionRow {
            amount,
            gamma,
            vega,
            delta: 0,
            volatility: 1,
            ..option(4, right)
        };
        let sold = small(2, 1, 1, 1);
        assert_eq!(cost(&[sold]), (113, 2_500));
        assert_eq!(cost(&[sold, sold]), (225, 5_000));
        assert_eq!(cost(&[sold, small(3, 1, 1, 1), sold]), (338, 7_500));
        assert_eq!(cost(&[sold, small(0, 1, 1, 3)]), (0, 5_000));
        assert_eq!(cost(&[sold, small(1, 2, 1, 0)]), (0, 2_500));
        assert_eq!(cost(&[small(3, 2, 1, 0), small(0, 1, 1, 0)]), (113, 0));
    }

    /// Catches classes or groups that are set against each other, and kinds or days that part an
    /// underlying.
    #[test]
    fn underlyings_are_classes_and_groups() {
        let (bought, sold) = (option(2, 0), option(2, 2));
        let index = OptionRow { kind: 3, ..bought };
        assert_eq!(cost(&[sold, index]), (0, 0));
        let other = OptionRow { group: 6, ..bought };
        assert_eq!(cost(&[sold, other]), (136_000_000, 840_000_000));
        let all = greeks(&[sold, other, option(4, 3), option(3, 1)]);
        let of = |gamma, vega| Greeks { gamma, vega };
        let expected = [
            of(136_000_000, 840_000_000),
            of(0, 420_000_000),
            of(478_125_000, 420_000_000),
        ];
        assert_eq!(all, expected);
        let groups = by_underlying(&[sold, other, option(4, 3), index]);
        let keys: Vec<Underlying> = groups.keys().copied().collect();
        assert_eq!(keys, [(2, 5), (2, 6), (4, 5)]);
        assert_eq!(groups[&(2, 5)], [sold, index]);
    }
}
