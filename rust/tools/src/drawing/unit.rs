//! Figures as drawings show them: exact where there is room, else shortened.

use crate::text::{mils, places, weighted, whole};

/// What a figure counts.
#[derive(Clone, Copy)]
pub enum Unit {
    /// Thousands of the currency unit.
    Amount,
    /// Weighted positions, tenths of the currency unit.
    Weighted,
    /// Charges in mils, thousandths of the currency unit.
    Charge,
}

/// What the digits before a name count.
const NAMES: [(i128, &str); 4] = [
    (1_000, "k"),
    (1_000_000, "m"),
    (1_000_000_000, "bn"),
    (1_000_000_000_000, "tn"),
];

impl Unit {
    /// How many of the figure make one.
    fn one(self) -> i128 {
        match self {
            Unit::Amount => 1,
            Unit::Weighted => 10,
            Unit::Charge => 1_000,
        }
    }

    /// The figure as tables print it.
    pub fn exact(self, value: i128) -> String {
        match self {
            Unit::Amount => whole(value),
            Unit::Weighted => weighted(value),
            Unit::Charge => mils(value),
        }
    }

    /// The figure, not below zero, in three digits: 1,234,567 is 1.23 m.
    fn short(self, value: i128) -> String {
        let names = NAMES.iter().map(|(size, name)| (size * self.one(), name));
        for (size, name) in names {
            for digits in [2, 1, 0] {
                let rounded = (2 * value * 10i128.pow(digits) + size) / (2 * size);
                match digits {
                    _ if rounded >= 1_000 => (),
                    0 => return format!("{rounded} {name}"),
                    _ => return format!("{} {name}", places(rounded, digits)),
                }
            }
        }
        self.exact(value)
    }

    /// The figure exactly where it has at most so many characters, else in three digits.
    pub fn fitted(self, value: i128, room: usize) -> String {
        let exact = self.exact(value);
        let sign = if value < 0 { "-" } else { "" };
        match exact.len() <= room {
            true => exact,
            false => format!("{sign}{}", self.short(value.abs())),
        }
    }

    /// A figure on an axis: without the places that are zero.
    pub fn tick(self, value: i128) -> String {
        match value % self.one() {
            0 => Unit::Amount.fitted(value / self.one(), 7),
            _ => self.fitted(value, 7),
        }
    }
}

#[cfg(test)]
mod tests {
    use super::*;

    /// Catches a figure that is cut off rather than rounded, and one that rounds to 1000 of its name.
    #[test]
    fn figures_without_room_are_rounded_to_three_digits() {
        for (value, text) in [
            (1_234_567, "1.23 m"),
            (1_235_000, "1.24 m"),
            (12_345_678, "12.3 m"),
            (123_456_789, "123 m"),
            (999_499_999, "999 m"),
            (999_500_000, "1.00 bn"),
            (4_000_000_000_000, "4.00 tn"),
            (-1_234_567, "-1.23 m"),
        ] {
            assert_eq!(Unit::Amount.fitted(value, 7), text);
        }
        assert_eq!(Unit::Weighted.fitted(12_345_678, 7), "1.23 m");
        assert_eq!(Unit::Charge.fitted(1_234_567_890, 7), "1.23 m");
        assert_eq!(Unit::Charge.fitted(12_345_678, 7), "12.3 k");
    }

    /// Catches a figure that is shortened though there is room for it.
    #[test]
    fn figures_with_room_are_exact() {
        assert_eq!(Unit::Amount.fitted(123_456, 7), "123,456");
        assert_eq!(Unit::Weighted.fitted(12_345, 7), "1,234.5");
        assert_eq!(Unit::Charge.fitted(735_000, 7), "735.000");
        assert_eq!(Unit::Charge.tick(735_000), "735");
        assert_eq!(Unit::Weighted.tick(5), "0.5");
    }
}
