//! What is wrong with a text, line by line.

use std::error::Error;
use std::fmt;

/// The most lines that are told.
const MOST_TOLD: usize = 20;

/// The most signs of a text that a message shows.
const MOST_SHOWN: usize = 60;

/// What is wrong with a line, and the column that it is of, where it is of one.
#[derive(Clone, Debug, PartialEq, Eq)]
pub struct Wrong {
    pub column: Option<String>,
    pub what: String,
}

impl From<String> for Wrong {
    fn from(what: String) -> Wrong {
        let column = None;
        Wrong { column, what }
    }
}

/// What is wrong with a line of the text. Lines are numbered from 1.
#[derive(Clone, Debug, PartialEq, Eq)]
pub struct LineError {
    pub line: usize,
    pub column: Option<String>,
    pub what: String,
}

impl LineError {
    /// What is wrong with a line.
    pub fn new(line: usize, wrong: impl Into<Wrong>) -> LineError {
        let Wrong { column, what } = wrong.into();
        LineError { line, column, what }
    }
}

impl fmt::Display for LineError {
    fn fmt(&self, out: &mut fmt::Formatter) -> fmt::Result {
        write!(out, "line {}: {}", self.line, self.what)
    }
}

/// Reads the fields of a line one after the other and keeps all that is wrong.
#[derive(Default)]
pub(crate) struct Fields(Vec<Wrong>);

impl Fields {
    /// What a field is read as, or nothing where it is wrong.
    pub fn take<T>(&mut self, read: Result<T, impl Into<Wrong>>) -> Option<T> {
        read.map_err(|wrong| self.0.push(wrong.into())).ok()
    }

    /// The same, with zero where it is wrong.
    pub fn number<T: Default>(&mut self, read: Result<T, Wrong>) -> T {
        self.take(read).unwrap_or_default()
    }

    /// What was made of the fields, where none is wrong.
    pub fn made<T>(self, made: Option<T>) -> Result<T, Vec<Wrong>> {
        made.filter(|_| self.0.is_empty()).ok_or(self.0)
    }
}

/// The faults of a text in the order of its lines: all those of the first 20 bad lines, and how many
/// more lines are bad.
#[derive(Clone, Debug, Default, PartialEq, Eq)]
pub struct Faults {
    told: Vec<LineError>,
    lines: usize,
    more: usize,
}

impl Faults {
    /// The faults that are told.
    pub fn told(&self) -> &[LineError] {
        &self.told
    }

    /// How many more lines are bad.
    pub fn more(&self) -> usize {
        self.more
    }

    /// One more line with its faults.
    fn push(&mut self, faults: Vec<LineError>) {
        if self.lines == MOST_TOLD {
            self.more += 1;
            return;
        }
        self.lines += 1;
        self.told.extend(faults);
    }

    /// What was read of a line; else its faults are one line more.
    pub(crate) fn of_line<T>(&mut self, line: usize, read: Result<T, Vec<Wrong>>) -> Option<T> {
        let of_line = |wrong| LineError::new(line, wrong);
        read.map_err(|all| self.push(all.into_iter().map(of_line).collect()))
            .ok()
    }

    /// A value where nothing is wrong.
    pub(crate) fn or<T>(self, value: T) -> Result<T, Faults> {
        match self.told.is_empty() {
            true => Ok(value),
            false => Err(self),
        }
    }
}

impl From<LineError> for Faults {
    fn from(fault: LineError) -> Faults {
        let (told, lines, more) = (vec![fault], 1, 0);
        Faults { told, lines, more }
    }
}

impl fmt::Display for Faults {
    fn fmt(&self, out: &mut fmt::Formatter) -> fmt::Result {
        let told: Vec<String> = self.told.iter().map(LineError::to_string).collect();
        write!(out, "{}", told.join("\n"))?;
        match self.more {
            0 => Ok(()),
            more => write!(out, "\nand {more} more bad lines"),
        }
    }
}

impl Error for Faults {}

/// What was found, as a message shows it: in quotes, on one line, and cut where it is long.
pub(crate) fn shown(found: &str) -> String {
    let mut text = String::new();
    for sign in found.chars().take(MOST_SHOWN) {
        match sign.is_control() {
            true => text.extend(sign.escape_default()),
            false => text.push(sign),
        }
    }
    let cut = found.chars().nth(MOST_SHOWN).map_or("", |_| "...");
    format!("'{text}{cut}'")
}

#[cfg(test)]
mod tests {
    use super::*;

    /// Lines 1, 2 and so on, with a fault each and the first with two.
    fn faults(count: usize) -> Faults {
        let mut faults = Faults::default();
        for line in 1..=count {
            let fault = LineError::new(line, "bad".to_string());
            let again = (line == 1).then(|| fault.clone());
            faults.push([fault].into_iter().chain(again).collect());
        }
        faults
    }

    /// Catches a limit that is one off, and a count that has the told ones in it.
    #[test]
    fn twenty_lines_are_told_and_the_others_counted() {
        assert_eq!(faults(0).or(7), Ok(7));
        let two = "line 1: bad\nline 1: bad\nline 2: bad";
        assert_eq!(faults(2).to_string(), two);
        for (count, last) in [
            (20, "line 20: bad"),
            (21, "and 1 more bad lines"),
            (120, "and 100 more bad lines"),
        ] {
            let text = faults(count).or(()).unwrap_err().to_string();
            assert_eq!(text.lines().last(), Some(last));
            assert_eq!(
                text.lines().filter(|line| line.ends_with("bad")).count(),
                21
            );
        }
    }

    /// Catches a message of several lines, or one that fills the screen.
    #[test]
    fn what_is_found_is_shown_on_one_line() {
        assert_eq!(shown("1'000"), "'1'000'");
        assert_eq!(shown("a\r\nb\t\0"), "'a\\r\\nb\\t\\u{0}'");
        assert_eq!(shown(&"é".repeat(60)), format!("'{}'", "é".repeat(60)));
        assert_eq!(shown(&"é".repeat(61)), format!("'{}...'", "é".repeat(60)));
    }
}
