//! The limit of a least trade: currency units with decimals.

use crate::cli::{usage, Failure};
use crate::text::mils;
use books::number::{digits, thousands};

/// What is told of a number with thousands separators.
fn parted(number: &str, decimals: bool) -> String {
    let meant = if decimals { " if that is meant" } else { "" };
    format!("thousands separators are not taken; write {number}{meant}")
}

/// What is told of a number with a sign. One below zero has no other to be written in its place.
fn signed(text: &str) -> Option<String> {
    match text.strip_prefix('+') {
        Some(number) if digits(number) => Some(format!("signs are not taken; write {number}")),
        _ => text
            .starts_with(['-', '\u{2212}'])
            .then(|| "nothing below zero is taken".into()),
    }
}

/// Currency units as mils; nothing for other text than digits, or digits, a point and one to three more.
fn in_mils(text: &str) -> Option<u64> {
    let (units, part) = text.split_once('.').unwrap_or((text, "0"));
    let units = units.replace('_', "");
    if !digits(&units) || !digits(part) || part.len() > 3 {
        return None;
    }
    let part: u64 = format!("{part:0<3}").parse().ok()?;
    let mils = units.parse::<u64>().ok()?.checked_mul(1_000)?;
    mils.checked_add(part)
}

/// What is told of a number with decimals behind a comma, or behind thousands that are parted by another
/// sign.
fn with_decimals(text: &str) -> Option<String> {
    let (head, tail) = text.split_at(text.rfind([',', '.'])?);
    let (mark, part) = tail.split_at(1);
    if !digits(part) || part.len() > 3 {
        return None;
    }
    match thousands(head) {
        Some((units, sign, _)) if !mark.starts_with(sign) => {
            Some(parted(&format!("{units}.{part}"), false))
        }
        None if mark == "," && digits(head) => Some(format!(
            "decimals stand behind a point; write {head}.{part}"
        )),
        _ => None,
    }
}

/// What to write in the place of a number that is written otherwise.
fn instead(text: &str) -> Option<String> {
    let whole = thousands(text).map(|(number, _, decimals)| parted(&number, decimals));
    whole
        .or_else(|| signed(text))
        .or_else(|| with_decimals(text))
}

/// The limit in mils.
pub fn limit(text: &str) -> Result<u64, Failure> {
    in_mils(text).ok_or_else(|| {
        let told = format!("--limit is '{text}', not currency units as 1000 or 994.5");
        usage(&match instead(text) {
            Some(why) => format!("{told}: {why}"),
            None => format!(
                "{told}, with at most three decimals, up to {}; amounts are in thousands, limits are not",
                mils(u64::MAX)
            ),
        })
    })
}

#[cfg(test)]
mod tests {
    use super::*;

    /// Catches decimals that are read as mils whatever their number, and a sum that wraps.
    #[test]
    fn limits_are_currency_units() {
        for (text, mils) in [
            ("0", 0),
            ("1000", 1_000_000),
            ("1_000.000", 1_000_000),
            ("994.5", 994_500),
            ("994.05", 994_050),
            ("0.007", 7),
            ("007", 7_000),
            ("18446744073709551.615", u64::MAX),
        ] {
            assert_eq!(limit(text), Ok(mils), "{text}");
        }
    }

    /// Catches a reason for nothing, and one that is missing: the unit is told with it.
    #[test]
    fn other_text_is_told_with_the_unit() {
        let most = "with at most three decimals, up to 18,446,744,073,709,551.615";
        for text in [
            "",
            ".",
            "1.",
            ".5",
            "1e3",
            "1k",
            "1.0005",
            "1,0005",
            "1.5.0",
            "1._5",
            " 1",
            "_",
            "1.000.5",
            "18446744073709551.616",
            "18446744073709552",
            "99999999999999999999",
        ] {
            let told = limit(text).unwrap_err();
            assert_eq!(told.status, 2);
            let begin = format!("--limit is '{text}', not currency units as 1000 or 994.5, {most}");
            let end = "; amounts are in thousands, limits are not";
            assert_eq!(told.message, begin + end);
        }
    }

    /// Catches advice where something else may have been meant, and another figure than was written.
    #[test]
    fn what_to_write_is_told_where_it_is_certain() {
        let parted = "thousands separators are not taken; write";
        let point = "decimals stand behind a point; write";
        for (text, why) in [
            ("1,000", format!("{parted} 1000 if that is meant")),
            ("1,000,000", format!("{parted} 1000000")),
            ("1.000.000", format!("{parted} 1000000")),
            ("1 000", format!("{parted} 1000")),
            ("1,000.5", format!("{parted} 1000.5")),
            ("1.000,50", format!("{parted} 1000.50")),
            ("1'000.500", format!("{parted} 1000.500")),
            ("994,5", format!("{point} 994.5")),
            ("0,500", format!("{point} 0.500")),
            ("1994,500", format!("{point} 1994.500")),
            ("+1", "signs are not taken; write 1".into()),
            ("-1", "nothing below zero is taken".into()),
        ] {
            let begin = format!("--limit is '{text}', not currency units as 1000 or 994.5");
            assert_eq!(limit(text), Err(usage(&format!("{begin}: {why}"))));
        }
    }
}
