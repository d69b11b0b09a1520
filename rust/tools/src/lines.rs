//! Lines that a user can check by hand: each holds a figure to what it must be.

use crate::text::{mils, table, COLUMNS};
use std::fmt;

/// A number, in the unit that both sides of a line have, and how it is printed.
pub type Shown = (i128, String);

/// How a figure stands to what it is held to.
#[derive(Clone, Copy)]
pub enum Sign {
    Equal,
    AtLeast,
    AtMost,
    Over,
}

impl Sign {
    fn holds(self, left: i128, right: i128) -> bool {
        match self {
            Sign::Equal => left == right,
            Sign::AtLeast => left >= right,
            Sign::AtMost => left <= right,
            Sign::Over => left > right,
        }
    }

    fn text(self) -> &'static str {
        match self {
            Sign::Equal => "=",
            Sign::AtLeast => ">=",
            Sign::AtMost => "<=",
            Sign::Over => ">",
        }
    }
}

/// One line: a figure, what it is held to, and whether it holds.
pub struct Line {
    name: String,
    figure: String,
    sign: &'static str,
    right: String,
    holds: bool,
}

impl Line {
    pub fn new(name: impl Into<String>, figure: Shown, sign: Sign, right: Shown) -> Line {
        Line {
            name: name.into(),
            holds: sign.holds(figure.0, right.0),
            figure: figure.1,
            sign: sign.text(),
            right: right.1,
        }
    }

    /// The name, the figure, the sign and what the figure is held to.
    pub fn cells(&self) -> [&str; 4] {
        [&self.name, &self.figure, self.sign, &self.right]
    }
}

impl fmt::Display for Line {
    fn fmt(&self, out: &mut fmt::Formatter) -> fmt::Result {
        let (name, figure, sign, right) = (&self.name, &self.figure, self.sign, &self.right);
        write!(out, "{name} {figure} {sign} {right}")
    }
}

/// A charge of the library's, in mils.
pub fn charge(value: u64) -> Shown {
    (value.into(), mils(value))
}

/// A charge in mils, as the sum of parts with their names.
pub fn parts<const N: usize>(parts: [(i128, &str); N]) -> Shown {
    let sum = parts.iter().map(|(part, _)| part).sum();
    let text = parts.map(|(part, name)| format!("{} ({name})", mils(part)));
    (sum, text.join(" + "))
}

/// A sum in as many lines as it takes to have at most so many columns; each but the first begins
/// with the sign of its first term.
fn folded(sum: &str, columns: usize) -> Vec<String> {
    let terms = sum.replace(" + ", "\n+ ").replace(" - ", "\n- ");
    let mut lines: Vec<String> = Vec::new();
    for term in terms.lines() {
        match lines.last_mut() {
            Some(line) if line.len() + 1 + term.len() <= columns => *line += &format!(" {term}"),
            _ => lines.push(term.into()),
        }
    }
    lines
}

/// The lines one below the other: names, figures and signs in columns, what stands right of these
/// folded where it is too long.
pub fn show(lines: &[Line]) -> String {
    let cells = |line: &Line| vec![line.name.clone(), line.figure.clone(), line.sign.into()];
    let left = table(&lines.iter().map(cells).collect::<Vec<_>>());
    let whole = |(left, line): (&str, &Line)| {
        let below = format!("\n{:width$} ", "", width = left.len());
        let right = folded(&line.right, COLUMNS.saturating_sub(left.len() + 1));
        format!("{left} {}\n", right.join(&below))
    };
    left.lines().zip(lines).map(whole).collect()
}

/// The lines that do not hold.
pub fn broken(lines: &[Line]) -> impl Iterator<Item = String> + '_ {
    let broken = lines.iter().filter(|line| !line.holds);
    broken.map(|line| format!("does not add up: {line}"))
}

/// Fails with what else is told and with every line that does not hold.
pub fn hold(told: Option<String>, lines: &[Line]) -> Result<(), String> {
    let told: Vec<String> = told.into_iter().chain(broken(lines)).collect();
    match &told[..] {
        [] => Ok(()),
        told => Err(told.join("\n")),
    }
}

#[cfg(test)]
mod tests {
    use super::*;

    #[test]
    fn signs_hold_as_they_are_printed() {
        let hold = |sign: Sign| [4, 5, 6].map(|left| sign.holds(left, 5));
        let cases = [
            (Sign::Equal, "=", [false, true, false]),
            (Sign::AtLeast, ">=", [false, true, true]),
            (Sign::AtMost, "<=", [true, true, false]),
            (Sign::Over, ">", [false, false, true]),
        ];
        for (sign, text, expected) in cases {
            assert_eq!((sign.text(), hold(sign)), (text, expected));
        }
    }

    #[test]
    fn lines_are_shown_in_columns_and_told_where_they_do_not_hold() {
        let shown = |value: i128| (value, value.to_string());
        let lines = [
            Line::new("a", shown(1_000), Sign::Equal, (1_000, "2 x 500".into())),
            Line::new("long", shown(7), Sign::AtLeast, (8, "8 short".into())),
        ];
        let text = "a     1000   = 2 x 500\nlong     7  >= 8 short\n";
        assert_eq!(show(&lines), text);
        let told: Vec<String> = broken(&lines).collect();
        assert_eq!(told, ["does not add up: long 7 >= 8 short"]);
    }

    /// Catches a line over 100 columns, one that is folded without need, and a term that is cut or
    /// loses its sign: below the = stand 75 columns, and the left side has 25.
    #[test]
    fn a_line_is_folded_where_it_has_over_100_columns() {
        let shown = |right: &str| {
            let figure = (1, "1,000,000.000".to_string());
            show(&[Line::new("charge", figure, Sign::Equal, (1, right.into()))])
        };
        let left = "charge  1,000,000.000  = ";
        let (forty, below) = ("9".repeat(40), " ".repeat(25));
        let (fits, over) = ("8".repeat(32), "8".repeat(33));
        assert_eq!(left.len(), 25);
        assert_eq!(
            shown(&format!("{forty} + {fits}")),
            format!("{left}{forty} + {fits}\n")
        );
        assert_eq!(
            shown(&format!("{forty} - {over} + 7")),
            format!("{left}{forty}\n{below}- {over} + 7\n")
        );
    }

    /// Catches lines that are not looked at, or are where nothing else is told.
    #[test]
    fn every_line_must_hold_beside_what_else_is_told() {
        let lines = |figure: u64| {
            let equal = |name| Line::new(name, charge(figure), Sign::Equal, charge(0));
            [equal("charge"), equal("total")]
        };
        let (right, wrong) = (lines(0), lines(1));
        let broken = "does not add up: charge 0.001 = 0.000\ndoes not add up: total 0.001 = 0.000";
        let differs = || Some("gross: differs".to_string());
        assert_eq!(hold(None, &right), Ok(()));
        assert_eq!(hold(None, &wrong), Err(broken.into()));
        assert_eq!(hold(differs(), &right), Err("gross: differs".into()));
        let both = format!("gross: differs\n{broken}");
        assert_eq!(hold(differs(), &wrong), Err(both));
    }

    #[test]
    fn a_charge_is_shown_in_currency_units_and_as_its_parts() {
        assert_eq!(charge(4_500), (4_500, "4.500".into()));
        let shown = parts([(4_000, "8% of gold"), (500, "3% of gross")]);
        let text = "4.000 (8% of gold) + 0.500 (3% of gross)";
        assert_eq!(shown, (4_500, text.into()));
    }
}
