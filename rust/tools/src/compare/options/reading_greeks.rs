//! Gamma and vega of some options by a reading, and the figures of their book.

use super::readings::Wrong;
use books::options::OptionRow;

/// A sum, with the class that it is charged in.
struct Sum {
    class: u8,
    group: u8,
    own: i128,
}

/// What is signed, where calls or bought options count as positive.
fn signed(option: &OptionRow, by_call: bool, number: u64) -> i128 {
    let positive = match by_call {
        true => option.right.is_multiple_of(2),
        false => option.right < 2,
    };
    let number = i128::from(number);
    if positive {
        number
    } else {
        -number
    }
}

/// The sums of some options by class and group, or by one of these alone.
fn sums(numbers: impl Iterator<Item = (OptionRow, i128)>, same: [bool; 2]) -> Vec<Sum> {
    let mut sums: Vec<Sum> = Vec::new();
    for (option, own) in numbers {
        let (class, group) = (option.class.clamp(2, 4), option.group);
        let fits =
            |sum: &&mut Sum| (!same[0] || sum.class == class) && (!same[1] || sum.group == group);
        match sums.iter_mut().find(fits) {
            Some(sum) => sum.own += own,
            None => sums.push(Sum { class, group, own }),
        }
    }
    sums
}

/// The charges of sums, class by class.
fn by_class(sums: &[Sum], charge: impl Fn(i128) -> u128) -> [u64; 3] {
    let mut charges = [0; 3];
    for sum in sums {
        charges[usize::from(sum.class) - 2] += charge(sum.own) as u64;
    }
    charges
}

impl Wrong {
    /// The impact of an option's gamma, in half mils.
    fn impact(self, option: &OptionRow) -> i128 {
        let class = option.class.clamp(2, 4);
        let moved = match self {
            Wrong::Moves(own, per_cent) if own == class => per_cent,
            _ if class == 4 => 15,
            _ => 8,
        };
        let impact = moved * moved * u64::from(option.amount) * u64::from(option.gamma);
        let impact = match self {
            Wrong::EachRounded => impact.next_multiple_of(2),
            Wrong::SoldAlone if option.right < 2 => 0,
            Wrong::NoGammaAtZero if option.delta == 0 => 0,
            _ => impact,
        };
        signed(option, self == Wrong::GammaByCall, impact)
    }

    /// The charge of gammas that sum to so many half mils.
    fn gamma(self, sum: i128) -> u128 {
        let lost = match self {
            Wrong::PositiveCharged => sum.unsigned_abs(),
            _ => (-sum).max(0).unsigned_abs(),
        };
        match self {
            Wrong::HalvesDown => lost / 2,
            Wrong::NarrowGamma => u128::from(lost.div_ceil(2) as u32),
            _ => lost.div_ceil(2),
        }
    }

    /// Gamma of each class.
    pub fn gammas(self, options: &[OptionRow]) -> [u64; 3] {
        let same = [self != Wrong::GammaOfClasses, self != Wrong::GammaOfGroups];
        let impacts = options.iter().map(|option| (*option, self.impact(option)));
        by_class(&sums(impacts, same), |sum| self.gamma(sum))
    }

    /// What an option's vega comes to, in mils.
    fn shift(self, option: &OptionRow) -> i128 {
        let rate = if self == Wrong::WholeVolatility {
            10_000
        } else {
            2_500
        };
        let shift = rate * u64::from(option.vega) * u64::from(option.volatility);
        match self {
            Wrong::WithoutSigns => shift.into(),
            Wrong::NoVegaAtZero if option.delta == 0 => 0,
            _ => signed(option, self == Wrong::VegaByCall, shift),
        }
    }

    /// The charge of vegas that sum to so much.
    fn vega(self, sum: i128) -> u128 {
        match self {
            Wrong::NegativeAlone => (-sum).max(0).unsigned_abs(),
            Wrong::PositiveAlone => sum.max(0).unsigned_abs(),
            Wrong::WholeThousands => sum.unsigned_abs().next_multiple_of(1_000_000),
            Wrong::NarrowVega => u128::from(sum.unsigned_abs() as u32),
            _ => sum.unsigned_abs(),
        }
    }

    /// Vega of each class.
    pub fn vegas(self, options: &[OptionRow]) -> [u64; 3] {
        let same = [self != Wrong::VegaOfClasses, self != Wrong::VegaOfGroups];
        let shifts = options.iter().map(|option| (*option, self.shift(option)));
        by_class(&sums(shifts, same), |sum| self.vega(sum))
    }

    /// What a book costs more.
    pub fn dear(self, book: &[u8]) -> u64 {
        u64::from(self == Wrong::DearMany && book.len() >= 8 + 16 * 6)
    }

    /// The six charges of a book and the total, with what a reading adds to it.
    pub fn charges(self, book: &[u8], gammas: [u64; 3], vegas: [u64; 3]) -> [u64; 7] {
        let entries = second::charge(book, &second::table()).entries();
        let mut charges: [u64; 7] = entries[3..10].try_into().expect("seven figures");
        charges[6] += match self {
            Wrong::GammaInTotal => gammas.iter().sum(),
            Wrong::VegaInTotal => vegas.iter().sum(),
            _ => self.dear(book),
        };
        charges
    }
}
