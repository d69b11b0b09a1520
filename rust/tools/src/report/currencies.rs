//! The interest charges of each currency as a table.

use crate::text::{mils, table};
use books::Book;
use market_risk::Report;
use std::collections::BTreeSet;

/// The currencies, 0 to 31, that have interest rows, in order.
pub fn used(book: &Book) -> BTreeSet<usize> {
    let groups = book.classes[0].iter().map(|row| usize::from(row.group));
    groups.filter(|group| *group < 32).collect()
}

/// One line: what a currency or all of them cost.
fn line(name: String, specific: u64, general: u64) -> Vec<String> {
    let figures = [specific, general, specific + general].map(mils);
    [&[name], &figures[..]].concat()
}

/// The table: a line for each currency that has interest rows, and their sums.
pub fn show(book: &Book, report: &Report) -> String {
    let titles = ["currency", "specific", "general", "together"];
    let mut lines = vec![titles.map(String::from).to_vec()];
    let (mut specifics, mut generals) = (0, 0);
    for group in used(book) {
        let (specific, general) = (report.specifics[group], report.generals[group]);
        lines.push(line(group.to_string(), specific, general));
        specifics += specific;
        generals += general;
    }
    lines.push(line("all".into(), specifics, generals));
    table(&lines)
}

#[cfg(test)]
mod tests {
    use super::*;
    use books::Row;

    /// Catches a currency that is left out because it costs nothing, one that is shown
    /// without rows, and a group of another class.
    #[test]
    fn a_currency_is_shown_if_it_has_interest_rows() {
        let mut book = Book::default();
        let row = Row::default().with_kind(1).with_sides(1, 0);
        book.classes[0] = [31, 0, 31, 4].map(|group| row.with_group(group)).to_vec();
        book.classes[1] = vec![row.with_group(5)];
        let mut report = Report::default();
        (report.specifics[0], report.generals[0]) = (1, 20);
        (report.specifics[31], report.generals[31]) = (300, 4_000_000);
        let expected = [
            "currency  specific    general   together",
            "0            0.001      0.020      0.021",
            "4            0.000      0.000      0.000",
            "31           0.300  4,000.000  4,000.300",
            "all          0.301  4,000.020  4,000.321",
        ];
        let text = show(&book, &report);
        assert_eq!(text.lines().collect::<Vec<_>>(), expected);
    }

    #[test]
    fn a_book_without_interest_rows_has_no_currencies() {
        let text = show(&Book::default(), &Report::default());
        let expected = [
            "currency  specific  general  together",
            "all          0.000    0.000     0.000",
        ];
        assert_eq!(text.lines().collect::<Vec<_>>(), expected);
    }
}
