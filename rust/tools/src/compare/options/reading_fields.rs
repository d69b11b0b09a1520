//! The fields of options by a reading: their bits, and the ranges that they must lie in.

use super::readings::Wrong;
use books::options::OptionRow;

/// A field that has a range of its own.
#[derive(Clone, Copy, Debug, PartialEq)]
pub enum Field {
    Class,
    Group,
    Right,
    /// The kind of shares.
    Kind,
    /// The kind of currencies and commodities, which is 0.
    NoKind,
    Amount,
    Delta,
    Gamma,
    Vega,
    Volatility,
    /// The days of commodities.
    Days,
    /// The days of shares and currencies, which are 0.
    NoDays,
}

impl Field {
    /// The field's number in an option.
    fn of(self, option: &OptionRow) -> i64 {
        match self {
            Field::Class => option.class.into(),
            Field::Group => option.group.into(),
            Field::Right => option.right.into(),
            Field::Kind | Field::NoKind => option.kind.into(),
            Field::Amount => option.amount.into(),
            Field::Delta => option.delta.into(),
            Field::Gamma => option.gamma.into(),
            Field::Vega => option.vega.into(),
            Field::Volatility => option.volatility.into(),
            Field::Days | Field::NoDays => option.days.into(),
        }
    }

    /// The option with the field cut to so many bits.
    fn cut(self, mut option: OptionRow, bits: u32) -> OptionRow {
        let mask = (1u32 << bits) - 1;
        match self {
            Field::Class => option.class &= mask as u8,
            Field::Group => option.group &= mask as u8,
            Field::Right => option.right &= mask as u8,
            Field::Kind | Field::NoKind => option.kind &= mask as u8,
            Field::Amount => option.amount &= mask,
            Field::Delta => option.delta &= mask as u16,
            Field::Gamma => option.gamma &= mask as u16,
            Field::Vega => option.vega &= mask as u16,
            Field::Volatility => option.volatility &= mask as u16,
            Field::Days | Field::NoDays => option.days &= mask as u16,
        }
        option
    }

    /// The range that is right.
    fn range(self) -> [i64; 2] {
        match self {
            Field::Class => [2, 4],
            Field::Group => [0, 31],
            Field::Right => [0, 3],
            Field::Kind => [1, 3],
            Field::NoKind | Field::NoDays => [0, 0],
            Field::Amount => [1, 1_000_000],
            Field::Delta => [0, 10_000],
            Field::Gamma | Field::Vega | Field::Volatility => [0, 65_535],
            Field::Days => [0, 36_000],
        }
    }
}

/// The fields of an option in a class that has kinds and days as it does; classes that are wrongly taken
/// are like the next.
fn fields(option: &OptionRow) -> [Field; 10] {
    [
        Field::Class,
        Field::Group,
        Field::Right,
        if option.class <= 2 {
            Field::Kind
        } else {
            Field::NoKind
        },
        Field::Amount,
        Field::Delta,
        Field::Gamma,
        Field::Vega,
        Field::Volatility,
        if option.class >= 4 {
            Field::Days
        } else {
            Field::NoDays
        },
    ]
}

impl Wrong {
    /// The option of its bytes.
    pub fn option(self, bytes: &[u8; 18]) -> OptionRow {
        let option = OptionRow::decode(bytes);
        match self {
            Wrong::Cut(field, bits) => field.cut(option, bits),
            _ => option,
        }
    }

    /// Whether an option is taken.
    pub fn takes(self, option: &OptionRow) -> bool {
        fields(option).into_iter().all(|field| {
            let [least, most] = field.range();
            let (least, most) = match self {
                Wrong::Least(other, more) if other == field => (least + more, most),
                Wrong::Most(other, more) if other == field => (least, most + more),
                _ => (least, most),
            };
            (least..=most).contains(&field.of(option))
        })
    }
}
