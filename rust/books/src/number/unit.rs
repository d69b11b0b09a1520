//! What the numbers of a column count, and how a message tells what to write there.

use super::{digits, taken, thousands};

/// What the numbers of a column count.
#[derive(Clone, Copy, Debug, PartialEq, Eq)]
pub enum Unit {
    /// Nothing but themselves.
    Plain,
    /// Only 0 is accepted.
    Nothing,
    /// A month is 30, a year 360.
    Days,
    BasisPoints,
    PerCents,
    Thousands,
    /// Thousands for a point of volatility.
    ThousandsAPoint,
    TenThousandths,
    /// Hundredths of a point of volatility.
    Hundredths,
}

/// A decimal number times a scale, where that is a whole number: 8.5 times 100 is 850.
fn times(number: &str, scale: u64) -> Option<u64> {
    let (whole, part) = number.split_once(['.', ',']).unwrap_or((number, ""));
    let all = format!("{whole}{part}");
    if !digits(&all) {
        return None;
    }
    let tens = 10u64.checked_pow(part.len().try_into().ok()?)?;
    let scaled = all.parse::<u64>().ok()?.checked_mul(scale)?;
    (scaled % tens == 0).then(|| scaled / tens)
}

/// A number and what stands behind it, without blanks and in small letters.
fn parted(text: &str) -> (&str, String) {
    let figure = |sign: char| sign.is_ascii_digit() || sign == '.' || sign == ',';
    let end = text.find(|sign| !figure(sign)).unwrap_or(text.len());
    let (number, behind) = text.split_at(end);
    (number, behind.trim().to_lowercase())
}

impl Unit {
    /// How a number is written, after "write it".
    fn words(self) -> &'static str {
        match self {
            Unit::Plain => "as a whole number",
            Unit::Nothing => "as 0, or leave it empty",
            Unit::Days => "in days",
            Unit::BasisPoints => "in basis points",
            Unit::PerCents => "in whole per cents",
            Unit::Thousands => "in whole thousands of the reporting currency",
            Unit::ThousandsAPoint => {
                "in whole thousands of the reporting currency for a point of volatility"
            }
            Unit::TenThousandths => "in ten-thousandths",
            Unit::Hundredths => "in hundredths of a point",
        }
    }

    /// A number in the unit, where no other is at hand.
    fn example(self) -> Option<&'static str> {
        match self {
            Unit::Plain | Unit::Nothing | Unit::ThousandsAPoint => None,
            Unit::Days => Some("a month is 30, a year 360"),
            Unit::BasisPoints => Some("8% is 800"),
            Unit::PerCents => Some("40% is 40"),
            Unit::Thousands => Some("a million is 1000"),
            Unit::TenThousandths => Some("0.5 is 5000"),
            Unit::Hundredths => Some("20% is 2000"),
        }
    }

    /// The most that a number comes to; another is in yet another unit.
    fn most(self) -> u64 {
        match self {
            Unit::Days => 36_000,
            Unit::PerCents => 100,
            _ => 10_000,
        }
    }

    /// What a text comes to in the unit, where it can be nothing else and is whole: 8.5% is 850. It is written so
    /// that it is taken, also where it is doubtful: 0.08% is 0008.
    fn meant(self, text: &str, doubtful: u64) -> Option<String> {
        let (number, behind) = parted(text);
        let (scale, shown) = match (self, &behind[..]) {
            (Unit::BasisPoints | Unit::Hundredths, "" | "%") => (100, "%"),
            (Unit::TenThousandths, "%") => (100, "%"),
            (Unit::TenThousandths, "") => (10_000, ""),
            (Unit::PerCents, "%") => (1, "%"),
            (Unit::Days, "y" | "yr" | "yrs" | "year" | "years") => (360, "y"),
            (Unit::Days, "m" | "mo" | "month" | "months") => (30, "m"),
            (Unit::Days, "d" | "day" | "days") => (1, "d"),
            _ => return None,
        };
        let count = times(number, scale)?;
        // Without its sign a volatility of under 3 may as well be a share, and a coupon of 0.08 be 8%; 1,000
        // days are no one day.
        let shares = match self {
            Unit::Hundredths => 300,
            Unit::BasisPoints => 20,
            _ => 0,
        };
        let share = behind.is_empty() && count < shares;
        let parts = self == Unit::Days && thousands(number).is_some();
        let certain = count <= self.most() && !share && !parts;
        certain.then(|| format!("{number}{shown} is {}", taken(count, doubtful)))
    }

    /// A number in the unit by what was written, or another.
    fn shown(self, text: &str, doubtful: u64) -> Option<String> {
        let example = || self.example().map(String::from);
        self.meant(text, doubtful).or_else(example)
    }

    /// What to write in the place of a text, where numbers up to this one are doubtful.
    pub(super) fn advice(self, text: &str, doubtful: u64) -> String {
        let words = self.words();
        match self.shown(text, doubtful) {
            Some(shown) => format!("write it {words}: {shown}"),
            None => format!("write it {words}"),
        }
    }
}

#[cfg(test)]
mod tests {
    use super::*;

    /// Texts in a column of a unit, and how the advice ends.
    const ADVICE: [(Unit, &str, &str); 32] = [
        (Unit::BasisPoints, "8%", "in basis points: 8% is 800"),
        (Unit::BasisPoints, "8.5 %", "in basis points: 8.5% is 850"),
        (Unit::BasisPoints, "8,25", "in basis points: 8,25% is 825"),
        (Unit::BasisPoints, "8.001", "in basis points: 8% is 800"),
        (Unit::BasisPoints, "0.08", "in basis points: 8% is 800"),
        (Unit::BasisPoints, "0.2", "in basis points: 0.2% is 20"),
        (Unit::BasisPoints, "0.08%", "in basis points: 0.08% is 8"),
        (Unit::BasisPoints, "8/100", "in basis points: 8% is 800"),
        (
            Unit::TenThousandths,
            "0.721",
            "in ten-thousandths: 0.721 is 7210",
        ),
        (Unit::TenThousandths, ".5", "in ten-thousandths: .5 is 5000"),
        (
            Unit::TenThousandths,
            "50%",
            "in ten-thousandths: 50% is 5000",
        ),
        (
            Unit::TenThousandths,
            "1.0",
            "in ten-thousandths: 1.0 is 10000",
        ),
        (
            Unit::TenThousandths,
            "25.5",
            "in ten-thousandths: 0.5 is 5000",
        ),
        (
            Unit::Hundredths,
            "14.5",
            "in hundredths of a point: 14.5% is 1450",
        ),
        (
            Unit::Hundredths,
            "1.05",
            "in hundredths of a point: 20% is 2000",
        ),
        (
            Unit::Hundredths,
            "2.99",
            "in hundredths of a point: 20% is 2000",
        ),
        (Unit::Hundredths, "3", "in hundredths of a point: 3% is 300"),
        (
            Unit::Hundredths,
            "1.05%",
            "in hundredths of a point: 1.05% is 105",
        ),
        (Unit::BasisPoints, "101%", "in basis points: 8% is 800"),
        (Unit::Days, "101y", "in days: a month is 30, a year 360"),
        (Unit::Days, "1,000d", "in days: a month is 30, a year 360"),
        (
            Unit::Days,
            "2.000 days",
            "in days: a month is 30, a year 360",
        ),
        (Unit::Days, "5y", "in days: 5y is 1800"),
        (Unit::Days, "2.5 Years", "in days: 2.5y is 900"),
        (Unit::Days, "18 months", "in days: 18m is 540"),
        (Unit::Days, "7d", "in days: 7d is 7"),
        (Unit::Days, "1.5", "in days: a month is 30, a year 360"),
        (
            Unit::Days,
            "2027-03-01",
            "in days: a month is 30, a year 360",
        ),
        (Unit::PerCents, "40%", "in whole per cents: 40% is 40"),
        (Unit::PerCents, "0.4", "in whole per cents: 40% is 40"),
        (Unit::Plain, "7.0", "as a whole number"),
        (Unit::Nothing, "n/a", "as 0, or leave it empty"),
    ];

    /// Catches advice by which another number is written than was meant.
    #[test]
    fn advice_is_in_the_unit_of_the_column() {
        for (unit, text, expected) in ADVICE {
            assert_eq!(
                unit.advice(text, 0),
                format!("write it {expected}"),
                "{text}"
            );
        }
        let thousands = "write it in whole thousands of the reporting currency";
        assert_eq!(
            Unit::Thousands.advice("5m", 0),
            format!("{thousands}: a million is 1000")
        );
        let point = format!("{thousands} for a point of volatility");
        assert_eq!(Unit::ThousandsAPoint.advice("8.4", 0), point);
    }

    /// Catches a product that is cut, or that wraps.
    #[test]
    fn products_are_exact() {
        assert_eq!(times("8.5", 100), Some(850));
        assert_eq!(times("0,0001", 10_000), Some(1));
        assert_eq!(times("0.00005", 10_000), None);
        assert_eq!(times("1.2.3", 100), None);
        assert_eq!(times(".", 100), None);
        assert_eq!(times("18446744073709551615", 100), None);
        assert_eq!(times(&format!("0.{}", "0".repeat(30)), 100), None);
    }
}
