//! What a command line asks of a least trade.

use super::limit::limit;
use crate::cli::{usage, Args, Command, Failure};
use crate::ladder::bands::{band, LOW_COUPON, ORDINARY};
use crate::text::whole;
use market_risk::Side;

/// A currency, a band, the side that an amount is added to, and the limit in mils.
#[derive(Clone, Copy, Debug, PartialEq, Eq)]
pub struct Asked {
    pub group: u64,
    pub band: u64,
    pub side: Side,
    pub limit: u64,
}

impl Asked {
    /// What a command line asks for, all of which it must give to this command.
    pub fn new(command: &Command, args: &Args) -> Result<Asked, Failure> {
        let (group, band) = (args.number("--currency")?, band_of(args)?);
        let side = args.text("--side").map(|word| side(&word));
        let limit = args.text("--limit").map(|text| limit(&text)).transpose()?;
        match (group, band, side, limit) {
            (Some(group), Some(band), Some(side), Some(limit)) => Ok(Asked {
                group,
                band,
                side,
                limit,
            }),
            _ => Err(command.incomplete(args)),
        }
    }

    /// The side in a word.
    pub fn side_word(&self) -> &'static str {
        match self.side {
            Side::Long => "long",
            Side::Short => "short",
        }
    }
}

/// The band, where it is given: by its number, or by days and a coupon.
fn band_of(args: &Args) -> Result<Option<u64>, Failure> {
    let [number, days, coupon] = ["--band", "--days", "--coupon"].map(|name| args.number(name));
    match (number?, days?, coupon?) {
        (Some(number), None, None) => Ok(Some(number)),
        (None, Some(days), Some(coupon)) => by_maturity(days, coupon).map(Some),
        _ => Ok(None),
    }
}

/// A number that may not be over its most.
fn at_most(name: &str, number: u64, most: u16) -> Result<u16, Failure> {
    match u16::try_from(number) {
        Ok(number) if number <= most => Ok(number),
        _ => Err(usage(&format!(
            "{name} is {}, and it may be 0 to {}",
            whole(number),
            whole(most)
        ))),
    }
}

/// The band of days, by the column of a coupon in basis points.
fn by_maturity(days: u64, coupon: u64) -> Result<u64, Failure> {
    let days = at_most("--days", days, 36_000)?;
    let column: &[u16] = match at_most("--coupon", coupon, 10_000)? {
        300.. => &ORDINARY,
        _ => &LOW_COUPON,
    };
    Ok(band(column, days) as u64)
}

/// The side that a word names, which is one of the two that the option takes.
fn side(word: &str) -> Side {
    match word {
        "long" => Side::Long,
        _ => Side::Short,
    }
}

#[cfg(test)]
mod tests {
    use super::*;

    /// E7 and E8 of document 01, and the limits of both numbers.
    #[test]
    fn bands_are_found_by_days_and_coupon() {
        for (days, coupon, band) in [
            (700, 300, 4),
            (700, 299, 5),
            (900, 800, 5),
            (30, 800, 0),
            (31, 0, 1),
            (7_200, 299, 13),
            (7_201, 299, 14),
            (36_000, 0, 14),
            (36_000, 10_000, 12),
        ] {
            assert_eq!(by_maturity(days, coupon), Ok(band), "{days} {coupon}");
        }
        let told = by_maturity(36_001, 0).unwrap_err();
        let why = "--days is 36,001, and it may be 0 to 36,000";
        assert_eq!((told.status, &told.message[..]), (2, why));
        let told = by_maturity(0, 65_536).unwrap_err();
        let why = "--coupon is 65,536, and it may be 0 to 10,000";
        assert_eq!(told.message, why);
    }

    #[test]
    fn sides_are_named() {
        assert_eq!(side("long"), Side::Long);
        assert_eq!(side("short"), Side::Short);
    }
}
