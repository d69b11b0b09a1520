//! The tables of a run.

use super::cases::Case;
use super::issues::ALL_APART;
use super::sides::Call;
use super::timed::{Clock, Timed};
use crate::cli::Failure;
use crate::net::bound;
use crate::text::{table, whole};

/// One line: a case, and all that is timed on it, the proved library first.
pub struct Line<'a> {
    pub book: &'static str,
    pub rows: usize,
    pub timed: Vec<Timed<'a>>,
}

/// The lines of one call.
pub struct Table<'a> {
    pub call: &'static str,
    pub lines: Vec<Line<'a>>,
}

/// The proved library's time as so many of the other's: below 1 it is the faster one.
fn ratio(proved: f64, other: f64) -> f64 {
    proved / other
}

/// A ratio with two digits behind the point, and with five where it is below a tenth.
fn shown(ratio: f64) -> String {
    match ratio < 0.1 {
        true => format!("{ratio:.5}"),
        false => format!("{ratio:.2}"),
    }
}

impl<'a> Table<'a> {
    /// A call on every case that it takes.
    pub fn new(call: &Call, cases: &'a [Case]) -> Result<Table<'a>, Failure> {
        let line = |case: &'a Case| {
            Ok(Line {
                book: case.name,
                rows: case.rows,
                timed: (call.sides)(case)?,
            })
        };
        let timed = cases.iter().filter(|case| call.takes(case));
        Ok(Table {
            call: call.name,
            lines: timed.map(line).collect::<Result<_, _>>()?,
        })
    }

    /// Does one thing with all that is timed, line by line.
    fn each(&mut self, act: impl Fn(&mut Timed) -> Result<(), Failure>) -> Result<(), Failure> {
        let mut timed = self.lines.iter_mut().flat_map(|line| &mut line.timed);
        timed.try_for_each(act)
    }

    /// Finds how often each thing is done in a measurement.
    pub fn settle(&mut self, clock: Clock) -> Result<(), Failure> {
        self.each(|timed| timed.settle(clock))
    }

    /// Measures each thing once.
    pub fn round(&mut self, clock: Clock) -> Result<(), Failure> {
        self.each(|timed| timed.round(clock))
    }

    /// The table as text: times of one call in nanoseconds, then ratios; below it what a
    /// comparison takes where nearly all of the time is comparing.
    pub fn text(&self) -> String {
        let mut lines = vec![titles(self.call, &self.lines[0].timed)];
        lines.extend(self.lines.iter().map(cells));
        let apart = self.lines.iter().filter(|line| line.book == ALL_APART);
        table(&lines) + &apart.map(per_comparison).collect::<String>()
    }
}

/// The time of a comparison by each name that makes any: each row is of another issue, and is
/// compared with all before it.
fn per_comparison(line: &Line) -> String {
    let (rows, made) = (whole(line.rows as i128), bound(line.rows));
    let comparing = line.timed.iter().filter(|side| side.name != "copy");
    let times: Vec<String> = comparing
        .map(|side| format!("{} {:.3} ns", side.name, side.median() / made as f64))
        .collect();
    let made = whole(made);
    format!(
        "each of {made} comparisons, {rows} rows of as many issues: {}\n",
        times.join(", ")
    )
}

/// The head of a table.
fn titles(call: &str, timed: &[Timed]) -> Vec<String> {
    let (proved, others) = (timed[0].name, &timed[1..]);
    let times = timed.iter().map(|side| format!("{} ns", side.name));
    let ratios = others
        .iter()
        .map(|side| format!("{proved} / {}", side.name));
    let first = [call.to_string(), "rows".to_string()];
    first.into_iter().chain(times).chain(ratios).collect()
}

/// The cells of a line.
fn cells(line: &Line) -> Vec<String> {
    let medians: Vec<f64> = line.timed.iter().map(Timed::median).collect();
    let times = medians.iter().map(|median| format!("{median:.1}"));
    let ratios = medians[1..].iter().map(|other| ratio(medians[0], *other));
    let ratios = ratios.map(shown);
    let first = [line.book.to_string(), whole(line.rows as i128)];
    first.into_iter().chain(times).chain(ratios).collect()
}

#[cfg(test)]
mod tests {
    use super::shown;

    /// Catches a small ratio that is shown as none.
    #[test]
    fn small_ratios_have_more_digits() {
        let ratios = [123.456, 1.0, 0.1, 0.0999, 0.00038];
        let texts = ["123.46", "1.00", "0.10", "0.09990", "0.00038"];
        assert_eq!(ratios.map(shown), texts);
    }
}
