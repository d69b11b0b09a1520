//! The header: where each column stands.
//!
//! All columns must be there, in any order and case, and no other: a misspelt column that was left out
//! would give a wrong total, which looks like any other.

#[cfg(test)]
mod tests;

use super::faults::{shown, Faults, LineError};
use super::records::{Record, Records};
use super::separator::separated;
use std::borrow::Cow;

/// The most faults of a header that are told.
const MOST_FAULTS: usize = 20;

/// The names of a header of which N are wanted.
pub fn names<const N: usize>(header: &str) -> [&str; N] {
    let mut names = header.split(',');
    std::array::from_fn(|_| names.next().expect("a header has its names"))
}

/// How the rows of a text are to be read.
pub struct Columns<const N: usize> {
    separator: char,
    /// The field of each column, in the order in which they are wanted.
    places: [usize; N],
    /// How many fields the header line has, with empty ones at its end.
    width: usize,
}

impl<const N: usize> Columns<N> {
    /// How many fields a row must have at least, and at most; those past the columns are empty. Where
    /// the separator is a comma it must have as many as the header: a number that is written 12,345
    /// without quotes makes one more, and could move what follows it to the next column.
    fn count(&self) -> (usize, usize) {
        match self.separator {
            ',' => (self.width, self.width),
            _ => (N, usize::MAX),
        }
    }

    /// The fields of a row in the order in which they are wanted.
    pub fn row<'r>(&self, fields: &'r [Cow<str>]) -> Result<[&'r str; N], String> {
        let (count, (least, most)) = (fields.len(), self.count());
        if !(least..=most).contains(&count) {
            let hint = match count > N && self.separator == ',' {
                true => "; is there a thousands separator?",
                false => "",
            };
            return Err(format!("{count} fields where {least} are wanted{hint}"));
        }
        match fields.iter().skip(N).find(|field| !field.is_empty()) {
            Some(past) => Err(format!("{} stands past the last column", shown(past))),
            None => Ok(self.places.map(|place| &*fields[place])),
        }
    }

    /// The columns of a header.
    fn of(wanted: &[&str; N], header: &Record, separator: char) -> Result<Columns<N>, LineError> {
        let given = named(&header.fields);
        let faults = faults(wanted, given);
        if !faults.is_empty() {
            let what = format!("{faults}; the columns are {}", wanted.join(", "));
            return Err(LineError::new(header.line, what));
        }
        let place = |name: &str| given.iter().position(|given| is(name, given));
        Ok(Columns {
            separator,
            places: wanted.map(|name| place(name).expect("no column is missing")),
            width: header.fields.len(),
        })
    }
}

/// Whether a header's name is a column's.
fn is(name: &str, given: &str) -> bool {
    name.eq_ignore_ascii_case(given)
}

/// The fields of a header without the empty ones at its end.
fn named<'r, 'a>(fields: &'r [Cow<'a, str>]) -> &'r [Cow<'a, str>] {
    let last = fields.iter().rposition(|field| !field.is_empty());
    &fields[..last.map_or(0, |last| last + 1)]
}

/// How many of the wanted columns a header has.
fn found(wanted: &[&str], given: &[Cow<str>]) -> usize {
    let there = |name: &&&str| given.iter().any(|given| is(name, given));
    wanted.iter().filter(there).count()
}

/// All that is wrong with the names of a header, or nothing.
fn faults(wanted: &[&str], given: &[Cow<str>]) -> String {
    if found(wanted, given) == 0 {
        return format!("{} is no header", shown(&given.join(",")));
    }
    let mut faults = Vec::new();
    for (at, name) in given.iter().enumerate() {
        let before = &given[..at];
        if name.is_empty() {
            faults.push(format!("column {} has no name", at + 1));
        } else if !wanted.iter().any(|wanted| is(wanted, name)) {
            faults.push(format!("{} is no column", shown(name)));
        } else if before.iter().any(|before| is(before, name)) {
            faults.push(format!("{} stands twice", shown(name)));
        }
    }
    let missing = wanted.iter().filter(|name| found(&[name], given) == 0);
    faults.extend(missing.map(|name| format!("{name} is missing")));
    let more = faults.len().saturating_sub(MOST_FAULTS);
    faults.truncate(MOST_FAULTS);
    if more > 0 {
        faults.push(format!("{more} faults more"));
    }
    faults.join("; ")
}

/// The columns of a text, and the records below its header.
pub fn read<'a, const N: usize>(
    wanted: &[&str; N],
    text: &'a str,
) -> Result<(Columns<N>, Records<'a>), Faults> {
    let text = text.strip_prefix('\u{feff}').unwrap_or(text);
    let found_in = |header: &Record| found(wanted, &header.fields);
    let (separator, mut records) = separated(text, found_in)?;
    let none = || {
        let columns = wanted.join(", ");
        LineError::new(1, format!("there is no header; the columns are {columns}"))
    };
    let header = records.next().unwrap_or_else(|| Err(none()))?;
    Ok((Columns::of(wanted, &header, separator)?, records))
}
