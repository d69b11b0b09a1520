//! Books that are taken and look as if something were left out of them: told beside the figures.

use crate::files::input;
use books::names::floating;
use books::{options, Book};
use std::io::Write;
use std::path::Path;

/// The most days of interest rows that weigh nothing under document 01's table.
const WEIGHTLESS: u16 = 30;

/// What looks wrong with the rows of a book, though it is accepted.
fn doubt(book: &Book) -> Option<&'static str> {
    let mut fixed = book.classes[0].iter().filter(|row| !floating(0, row.kind));
    let some = fixed.clone().next().is_some();
    if book.rows() == 0 {
        return Some("there are no rows, and every charge is zero");
    }
    let short = some && fixed.all(|row| row.days <= WEIGHTLESS);
    short.then_some(
        "no fixed-rate row has over 30 days, and those weigh nothing under document 01's table; \
         days are not years: a year is 360",
    )
}

/// Tells on standard error what need not be wrong with a file.
pub fn note(path: &Path, what: &str) {
    // A note that cannot be written is none.
    let name = input(path);
    let _ = writeln!(std::io::stderr(), "market-risk: note: {name}: {what}");
}

/// Tells what looks wrong with an accepted book.
pub fn of_book(path: &Path, bytes: &[u8]) {
    let accepted = market_risk::check(bytes).is_ok();
    let book = Book::decode(bytes).filter(|_| accepted);
    if let Some(what) = book.as_ref().and_then(doubt) {
        note(path, what);
    }
}

/// Tells that an option table has no options.
pub fn of_options(path: &Path, bytes: &[u8]) {
    if options::decode(bytes).is_some_and(|options| options.is_empty()) {
        note(path, "there are no options, and every charge is zero");
    }
}

#[cfg(test)]
mod tests {
    use super::*;
    use books::Row;

    /// Catches years that are entered for days and cost nothing without a word, and a note of a book that has
    /// other rows.
    #[test]
    fn books_that_cost_nothing_are_told() {
        let row = |kind, days| Row::default().with_kind(kind).with_days(days);
        let told = |rows: &[Row]| {
            let mut book = Book::default();
            book.classes[0] = rows.to_vec();
            doubt(&book)
        };
        assert!(told(&[]).unwrap().starts_with("there are no rows"));
        assert!(told(&[row(1, 5), row(3, 30)]).unwrap().contains("years"));
        let beside = told(&[row(4, 90), row(3, 30)]).unwrap();
        assert!(beside.starts_with("no fixed-rate row has over 30 days"));
        assert_eq!(told(&[row(1, 5), row(3, 31)]), None);
        assert_eq!(told(&[row(4, 5)]), None);
        let mut book = Book::default();
        book.classes[2] = vec![row(0, 0)];
        assert_eq!(doubt(&book), None);
    }
}
