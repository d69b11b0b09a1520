//! What of a report can be counted again from its book and its other figures.

use super::currencies;
use books::Book;
use market_risk::Report;

/// Another number of rows taken than the file has.
fn rows(book: &Book, report: &Report) -> Option<String> {
    let (rows, taken) = (book.rows() as u64, report.taken);
    (taken != rows).then(|| format!("the file has {rows} rows, the library took {taken}"))
}

/// A total that is not the sum of the six charges.
fn total(report: &Report) -> Option<String> {
    let interest = report.interest_specific + report.interest_general;
    let equity = report.equity_specific + report.equity_general;
    let sum = interest + equity + report.exchange + report.commodity;
    let total = report.total;
    (total != sum).then(|| format!("the six charges are {sum} mils, the library's total {total}"))
}

/// A list that does not sum to the figure that it splits.
fn sum(name: &str, list: &[u64; 32], figure: u64) -> Option<String> {
    let sum: u128 = list.iter().map(|charge| u128::from(*charge)).sum();
    let unequal = sum != u128::from(figure);
    unequal.then(|| format!("interest {name} is {figure} mils, by currencies {sum}"))
}

/// A charge of a currency that has no interest rows.
fn stray(name: &str, list: &[u64; 32], book: &Book) -> Option<String> {
    let used = currencies::used(book);
    let stray = |group: &usize| list[*group] != 0 && !used.contains(group);
    let group = (0..list.len()).find(stray)?;
    let charge = list[group];
    Some(format!(
        "currency {group} has no interest rows, its interest {name} is {charge} mils"
    ))
}

/// Why a report cannot be that of the book.
pub fn doubt(book: &Book, report: &Report) -> Option<String> {
    let lists = [
        ("specific", &report.specifics, report.interest_specific),
        ("general", &report.generals, report.interest_general),
    ];
    let wrong = |(name, list, figure)| sum(name, list, figure).or_else(|| stray(name, list, book));
    rows(book, report)
        .or_else(|| total(report))
        .or_else(|| lists.into_iter().find_map(wrong))
}

#[cfg(test)]
mod tests {
    use super::*;
    use books::Row;
    use market_risk::Table;

    /// Other paper, long 1 at 270 days, in currencies 3 and 31, and its report: 8% and 0.70%.
    fn right() -> (Book, Report) {
        let row = Row::default().with_kind(3).with_days(270).with_sides(1, 0);
        let mut book = Book::default();
        book.classes[0] = [3, 31].map(|group| row.with_group(group)).to_vec();
        let book_bytes = book.encode().unwrap();
        let report = market_risk::charge(&book_bytes, &Table::amendment()).unwrap();
        assert_eq!(report.interest_specific, 160_000);
        assert_eq!(report.interest_general, 14_000);
        assert_eq!(doubt(&book, &report), None);
        (book, report)
    }

    /// What is told of the report after a change.
    fn told(change: impl Fn(&mut Report)) -> String {
        let (book, mut report) = right();
        change(&mut report);
        doubt(&book, &report).unwrap()
    }

    #[test]
    fn a_total_that_is_not_the_sum_is_doubted() {
        let why = "the six charges are 174005 mils, the library's total 174000";
        assert_eq!(told(|report| report.commodity = 5), why);
    }

    #[test]
    fn another_number_of_rows_is_doubted() {
        let why = "the file has 2 rows, the library took 3";
        assert_eq!(told(|report| report.taken = 3), why);
    }

    /// Catches a list that is not looked at, or is held to the other's figure.
    #[test]
    fn a_list_that_does_not_add_up_is_doubted() {
        let why = "interest specific is 160000 mils, by currencies 160001";
        assert_eq!(told(|report| report.specifics[3] += 1), why);
        let why = "interest general is 14000 mils, by currencies 7000";
        assert_eq!(told(|report| report.generals[31] = 0), why);
        let exchanged = |report: &mut Report| {
            std::mem::swap(&mut report.specifics, &mut report.generals);
        };
        let why = "interest specific is 160000 mils, by currencies 14000";
        assert_eq!(told(exchanged), why);
        // Sums that are past 64 bits are told too.
        let why = "interest specific is 160000 mils, by currencies 18446744073709711615";
        assert_eq!(told(|report| report.specifics[0] = u64::MAX), why);
    }

    /// Catches a look at the sums alone, which a list shifted by one leaves as they are.
    #[test]
    fn a_charge_of_a_currency_without_rows_is_doubted() {
        let why = "currency 0 has no interest rows, its interest specific is 80000 mils";
        assert_eq!(told(|report| report.specifics.rotate_right(1)), why);
        let why = "currency 2 has no interest rows, its interest general is 7000 mils";
        assert_eq!(told(|report| report.generals.rotate_left(1)), why);
    }
}
