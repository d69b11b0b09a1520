//! Fields that are whole numbers: digits alone, in the unit of the column. What else people and
//! spreadsheets write is told with what it is and what to write.

pub mod column;
mod unit;

#[cfg(test)]
mod tests;

use crate::csv::{shown, Wrong};

pub use column::{column, Column};
pub use unit::Unit;

/// The signs that people and spreadsheets part thousands with, no-break spaces among them.
const PARTS: [char; 9] = [
    ',', '.', '\'', '\u{2019}', ' ', '\u{a0}', '\u{2009}', '\u{202f}', '_',
];

/// The signs of numbers below zero, dashes among them; an accountant's are in brackets.
const BELOW_ZERO: [char; 5] = ['-', '\u{2212}', '\u{2013}', '\u{2014}', '('];

/// Whether a text is digits alone, and some.
pub fn digits(text: &str) -> bool {
    !text.is_empty() && text.bytes().all(|byte| byte.is_ascii_digit())
}

/// The digits of a number whose thousands are parted: one to three digits, of which the first is not 0, then
/// groups of three, in between also of two. With the sign that parts them, and whether one point or comma
/// may as well have been meant for decimals.
pub fn thousands(text: &str) -> Option<(String, char, bool)> {
    let part = text.chars().find(|sign| PARTS.contains(sign))?;
    let groups: Vec<&str> = text.split(part).collect();
    let [first, between @ .., last] = &groups[..] else {
        return None;
    };
    let whole = groups.iter().all(|group| digits(group));
    let begins = first.len() <= 3 && !first.starts_with('0');
    let goes_on = between.iter().all(|group| (2..=3).contains(&group.len()));
    let decimals = between.is_empty() && [',', '.'].contains(&part);
    (whole && begins && goes_on && last.len() == 3).then(|| (groups.concat(), part, decimals))
}

/// The number before a point or comma that has zeros alone behind it, as programs write whole numbers.
fn without_decimals(text: &str) -> Option<&str> {
    let (number, part) = text.split_once(['.', ','])?;
    let zeros = !part.is_empty() && part.bytes().all(|byte| byte == b'0');
    (digits(number) && zeros).then_some(number)
}

/// What to write where thousands are parted, or decimals are zeros.
fn joined(column: &Column, text: &str, number: &str, decimals: bool) -> String {
    match column.unit {
        Unit::Nothing => advice(column, text),
        _ if !decimals => format!("write {number}"),
        Unit::BasisPoints | Unit::TenThousandths | Unit::Hundredths => {
            let advice = advice(column, text);
            format!("write {number} if that is meant, else {advice}")
        }
        _ => format!("write {number} if that is meant"),
    }
}

/// Why a field that is not digits alone is no whole number, and what to write.
fn why(column: &Column, text: &str) -> String {
    let point = |sign: char| sign == '.' || sign == ',';
    let figure = |sign: char| sign.is_ascii_digit() || PARTS.contains(&sign);
    let has_digits = text.contains(|sign: char| sign.is_ascii_digit());
    if let Some((number, _, decimals)) = thousands(text) {
        let write = joined(column, text, &number, decimals);
        return format!(": thousands separators are not taken; {write}");
    }
    let above = text.strip_prefix('+').filter(|number| digits(number));
    if let Some(number) = without_decimals(text) {
        let write = joined(column, text, number, true);
        return format!(": decimals are not taken; {write}");
    }
    let advice = match above {
        Some(number) => format!("write {number}"),
        None => advice(column, text.trim_start_matches('+')),
    };
    let below = text.starts_with(BELOW_ZERO) || text.ends_with(['-', '\u{2212}']);
    match text {
        _ if text.starts_with('=') => format!(": formulas are not taken; {advice}"),
        _ if has_digits && below => below_zero(column),
        _ if text.starts_with('+') => format!(": signs are not taken; {advice}"),
        _ if has_digits && text.contains(point) && text.chars().all(figure) => {
            format!(": decimals are not taken; {advice}")
        }
        _ if has_digits => format!(": units and other signs are not taken; {advice}"),
        _ => format!(", not a whole number; {}", with_zero(column, advice)),
    }
}

/// What to write in a column in the place of a text.
fn advice(column: &Column, text: &str) -> String {
    match (column.unit, column.range) {
        (Unit::Plain, range) if !range.is_empty() => format!("write a whole number of {range}"),
        (unit, _) => unit.advice(text, column.doubtful),
    }
}

/// The same, and what 0 stands for.
fn with_zero(column: &Column, advice: String) -> String {
    match column.zero {
        "" => advice,
        zero => format!("{advice}; {zero}"),
    }
}

/// Why a number below zero is not taken, and what to write.
fn below_zero(column: &Column) -> String {
    let not = ": a number below zero is not taken";
    match column.below_zero {
        "" => not.into(),
        write => format!("{not}; {write}"),
    }
}

/// Whether a text is what 1,000 or 1,080 leaves for the next field where it has no quotes: zeros alone, and
/// several, or three digits of which the first is 0.
fn cut_off(text: &str) -> bool {
    let zeros = text.len() > 1 && text.bytes().all(|byte| byte == b'0');
    zeros || (text.len() == 3 && text.starts_with('0'))
}

/// What is wrong with a field that is empty.
fn empty(column: &Column) -> String {
    format!(" is empty; {}", with_zero(column, advice(column, "")))
}

/// What is told of a number that looks like one of another unit: 8 as a coupon, which is 0.08%.
fn doubtful(column: &Column, text: &str, number: u64) -> Option<String> {
    let doubted = (1..=column.doubtful).contains(&number) && text.len() < 4;
    let value = match column.unit {
        Unit::Days => format!("{number} days"),
        Unit::TenThousandths => format!("0.{number:04}"),
        _ => format!("{}.{:02}%", number / 100, number % 100),
    };
    doubted.then(|| {
        let advice = advice(column, text);
        format!(" is {text}, which is {value}: {advice}; write {number:04} if {value} is meant")
    })
}

/// A number in four digits up to the largest that is doubtful, so that it is taken.
fn taken(number: u64, doubtful: u64) -> String {
    match (1..=doubtful).contains(&number) {
        true => format!("{number:04}"),
        false => number.to_string(),
    }
}

/// A number as it is written in a column, so that it is taken back.
pub(crate) fn written(column: &Column, number: u16) -> String {
    taken(number.into(), column.doubtful)
}

/// The number that digits make in a column, or what is wrong with them.
fn number<T: TryFrom<u64>>(column: &Column, text: &str) -> Result<T, String> {
    if cut_off(text) {
        let number = text.trim_start_matches('0');
        let number = if number.is_empty() { "0" } else { number };
        let hint = "is there a thousands separator before it? write";
        let text = shown(text);
        return Err(format!(" is {text}: {hint} {number} if that is meant"));
    }
    let number = text.parse::<u64>().ok();
    let fits = number.and_then(|number| T::try_from(number).ok());
    match number.and_then(|number| doubtful(column, text, number)) {
        Some(doubt) => Err(doubt),
        None => fits.ok_or_else(|| match column.range {
            "" => format!(" is {}, too large", shown(text)),
            range => format!(" is {}, and may be {range}", shown(text)),
        }),
    }
}

/// The number of a field, within what its bytes can hold.
pub fn field<T: TryFrom<u64>>(column: &Column, text: &str) -> Result<T, Wrong> {
    let read = match text {
        "" if column.may_be_empty => number(column, "0"),
        "" => Err(empty(column)),
        _ if digits(text) => number(column, text),
        _ => Err(format!(" is {}{}", shown(text), why(column, text))),
    };
    read.map_err(|what| Wrong {
        column: Some(column.name.into()),
        what: format!("{}{}{what}", column.name, column.holds),
    })
}
