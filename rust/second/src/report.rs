//! The report of a book: six charges and their total, in mils (Introduction I, 9 and
//! 13 (b)), how many rows were taken for them (document 02, P4), and the two interest
//! charges of each currency (document 02, P6), under a loaded table (document 02, P10).

use crate::book::{read, Refusal, Row};
use crate::table::{read_table, Table};
use crate::{commodity, figure, interest, open, GROUPS};

/// The refusal, the six charges, the total, the rows taken and the charges of each
/// currency; all figures are zero on a refusal.
#[derive(Clone, Copy, Debug, Default, PartialEq, Eq)]
pub struct Report {
    pub refusal: Refusal,
    pub interest_specific: u64,
    pub interest_general: u64,
    pub equity_specific: u64,
    pub equity_general: u64,
    pub exchange: u64,
    pub commodity: u64,
    pub total: u64,
    /// How many rows of the file the figures were made from: all, or none on a refusal.
    pub taken: u64,
    /// The specific charge of each currency's interest rows alone.
    pub specifics: [u64; GROUPS],
    /// The general charge of each currency's interest rows alone.
    pub generals: [u64; GROUPS],
}

/// The report of the rows of an accepted book, under an accepted table.
fn report(rows: &[Row], table: &Table) -> Report {
    let general = |rows: &[Row]| interest::general(rows, table);
    let charges = [
        interest::specific(rows),
        general(rows),
        open::equity_specific(rows),
        open::equity_general(rows),
        open::exchange(rows),
        commodity::charge(rows),
    ]
    .map(figure);
    Report {
        refusal: Refusal::NONE,
        interest_specific: charges[0],
        interest_general: charges[1],
        equity_specific: charges[2],
        equity_general: charges[3],
        exchange: charges[4],
        commodity: charges[5],
        total: charges.iter().sum(),
        taken: rows.len() as u64,
        specifics: interest::of_each_currency(interest::specific, rows),
        generals: interest::of_each_currency(general, rows),
    }
}

/// The report of a book under a table. A refused table is refused before the book.
pub fn charge(book: &[u8], table: &[u8]) -> Report {
    let both = read_table(table).and_then(|table| Ok((read(book)?, table)));
    match both {
        Ok((rows, table)) => report(&rows, &table),
        Err(refusal) => Report {
            refusal,
            ..Report::default()
        },
    }
}
