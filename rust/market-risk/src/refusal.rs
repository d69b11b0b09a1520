//! Who is told no, and why.

use std::error::Error;
use std::fmt;

/// A refused call: the number of document 01 or 02, the row and the book.
///
/// ```
/// let refusal = market_risk::check(&[]).unwrap_err();
/// assert_eq!(refusal.to_string(), "refused 1: fewer than 8 bytes");
/// // A floating-rate note with 90 days to its next fixing and 89 to final maturity.
/// let mut book = vec![1, 0, 0, 0, 0, 0, 0, 0];
/// book.extend([7, 4, 90, 0, 89, 0, 0, 0, 10, 0, 0, 0, 0, 0, 0, 0]);
/// let refusal = market_risk::check(&book).unwrap_err();
/// assert_eq!((refusal.number, refusal.row), (15, 0));
/// ```
#[derive(Clone, Copy, Debug, PartialEq, Eq)]
pub struct Refusal {
    /// 1 to 22.
    pub number: u64,
    /// The bad row, counted from 0 through the whole file, or for 17 in the option table; 0 for all but 4 to 9,
    /// 13 to 15 and 17.
    pub row: u64,
    /// 1 for a fault of the second book of a join, else 0.
    pub book: u64,
}

impl Refusal {
    /// The first three entries of a result.
    pub(crate) fn read(out: &[u64]) -> Refusal {
        Refusal {
            number: out[0],
            row: out[1],
            book: out[2],
        }
    }

    /// The refusal at the head of a result, if there is one.
    pub(crate) fn of(out: &[u64]) -> Result<(), Refusal> {
        match Refusal::read(out) {
            Refusal { number: 0, .. } => Ok(()),
            refusal => Err(refusal),
        }
    }

    /// Whether the refusal is of one row, of a book or of an option table.
    pub fn names_row(&self) -> bool {
        matches!(self.number, 4..=9 | 13..=15 | 17)
    }

    /// The reason in words.
    pub fn reason(&self) -> &'static str {
        match self.number {
            1 => "fewer than 8 bytes",
            2 => "more than 4,000 rows by the counts",
            3 => "the length is not 8 bytes plus 16 for each row counted",
            4 => "group over 31",
            5 => "kind not of its class",
            6 => "days out of their range",
            7 => "coupon out of its range",
            8 => "both amounts zero or both nonzero",
            9 => "an amount over 1,000,000,000",
            10 => "ladder group over 31",
            11 => "more than 4,000 rows joined",
            12 => "output shorter than the result",
            13 => "group, kind, days or coupon not those of the first row of its issue",
            14 => "the net of its issue is over 1,000,000,000",
            15 => "fixing over 360 days, or final maturity over 36,000 or before fixing",
            16 => "more than 1,000 options, or the length is not 2 bytes plus 18 for each option counted",
            17 => "a field of the option out of its range",
            18 => "the table has not 36 bytes",
            19 => "the table's weights fall or exceed 2,000, or its per cents are out of order",
            20 => "interest or equity rows in a small bank's book",
            21 => "band over 14 or side over 1",
            22 => "more than 4,000 rows, or a largest amount that is not 1 to 1,000,000,000",
            _ => "no reason that this interface knows",
        }
    }
}

impl fmt::Display for Refusal {
    fn fmt(&self, out: &mut fmt::Formatter) -> fmt::Result {
        write!(out, "refused {}", self.number)?;
        if self.names_row() {
            write!(out, " row {}", self.row)?;
        }
        if self.book == 1 {
            write!(out, " of the second book")?;
        }
        write!(out, ": {}", self.reason())
    }
}

impl Error for Refusal {}
