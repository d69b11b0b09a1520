//! Whole numbers as options take them: as a field of text, but that _ may part the digits.

use books::number::column::{COUPON, DAYS};
use books::number::{column, digits, field, Column, Unit};

/// What an option counts, where people write it in other units too.
fn counted(name: &str) -> Column<'_> {
    match name {
        "--coupon" => Column { name, ..COUPON },
        "--days" => Column { name, ..DAYS },
        "--most" => column(name, Unit::Thousands, "1 to 1,000,000,000"),
        "--currency" | "--commodity" => column(name, Unit::Plain, "0 to 31"),
        "--band" => column(name, Unit::Plain, "0 to 14"),
        "--rows" => column(name, Unit::Plain, "0 to 4,000"),
        _ => column(name, Unit::Plain, ""),
    }
}

/// The number that an option is given, or what is told of another word.
pub fn whole(name: &str, text: &str) -> Result<u64, String> {
    let together = Some(text.replace('_', "")).filter(|number| digits(number));
    // 007 is no rest of a number with a thousands separator: no word stands before it.
    let number = match together.as_deref() {
        Some(three) if three.len() == 3 => three.trim_start_matches('0'),
        other => other.unwrap_or(text),
    };
    let number = if number.is_empty() && !text.is_empty() {
        "0"
    } else {
        number
    };
    field(&counted(name), number).map_err(|wrong| wrong.what)
}

#[cfg(test)]
mod tests {
    use super::*;

    /// Catches a word that is taken though it is not digits, and a number that is not.
    #[test]
    fn digits_are_taken() {
        for (text, number) in [
            ("0", 0),
            ("000", 0),
            ("007", 7),
            ("0007", 7),
            ("1_000", 1_000),
        ] {
            assert_eq!(whole("--rows", text), Ok(number), "{text}");
        }
        assert_eq!(whole("--rows", &u64::MAX.to_string()), Ok(u64::MAX));
        for text in ["", "_", "x", "+5", "-5", " 5", "1e3", "0x10", "\u{663}"] {
            assert!(whole("--rows", text).is_err(), "{text}");
        }
    }

    /// Catches a unit that is not told, and per cents that are taken for basis points.
    #[test]
    fn other_units_are_told_in_their_own() {
        for (name, text, expected) in [
            ("--coupon", "8%", "write it in basis points: 8% is 800"),
            ("--coupon", "8", "write 0008 if 0.08% is meant"),
            ("--days", "5y", "write it in days: 5y is 1800"),
            (
                "--most",
                "5m",
                "of the reporting currency: a million is 1000",
            ),
            ("--rows", "+5", "signs are not taken; write 5"),
            ("--rows", "18446744073709551616", "and may be 0 to 4,000"),
            ("--seed", "18446744073709551616", ", too large"),
        ] {
            let told = whole(name, text).unwrap_err();
            assert!(told.starts_with(name) && told.ends_with(expected), "{told}");
        }
        assert_eq!(whole("--coupon", "0008"), Ok(8));
        assert_eq!(whole("--rows", "8"), Ok(8));
    }
}
