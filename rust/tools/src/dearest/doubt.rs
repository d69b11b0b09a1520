//! What of the library's dearest book can be counted and charged again.

use super::rates::Rate;
use super::{total, Asked};
use crate::lines;
use crate::text::{mils, whole};
use books::{Book, Row};
use market_risk::{Dearest, Table};

/// Another length than so many rows have, or bytes that are no book of them.
fn rows(asked: &Asked, file: &[u8], length: usize) -> Option<String> {
    if length != file.len() {
        let [told, bytes] = [length, file.len()].map(|length| whole(length as u64));
        return Some(format!("the library tells of {told} bytes, not {bytes}"));
    }
    let Some(book) = Book::decode(file) else {
        return Some("the library's book has other counts than rows".into());
    };
    let rows = book.rows() as u64;
    let other = rows != asked.rows;
    let of = |row: &Row| u64::from(row.long.max(row.short));
    let over = book
        .classes
        .iter()
        .flatten()
        .map(of)
        .find(|amount| *amount > asked.most);
    let over = || {
        over.map(|amount| {
            format!(
                "an amount of {} is over {}",
                whole(amount),
                whole(asked.most)
            )
        })
    };
    other
        .then(|| format!("the library's book has {rows} rows, not {}", asked.rows))
        .or_else(over)
}

/// The library's own charge of a book, in mils, or its refusal.
fn charged(file: &[u8]) -> Result<u64, String> {
    let report = market_risk::charge(file, &Table::amendment());
    report
        .map(|report| report.total)
        .map_err(|refusal| refusal.to_string())
}

/// A book that the library refuses, or charges another total.
fn cost(file: &[u8], total: u64) -> Option<String> {
    match charged(file) {
        Err(why) => Some(format!("the library's book is {why}")),
        Ok(sum) if sum == total => None,
        Ok(sum) => {
            let [sum, total] = [sum, total].map(mils);
            Some(format!(
                "the library charges its book {sum}, and tells {total}"
            ))
        }
    }
}

/// A class that the library charges another rate, by a row of the largest amount alone.
fn rate(rate: &Rate, most: u64) -> Option<String> {
    let mut book = Book::default();
    book.classes[rate.class].push(rate.row(most as u32));
    let expected = i128::from(most) * rate.both();
    match charged(&book.encode().expect("one row")) {
        Ok(sum) if i128::from(sum) == expected => None,
        Ok(sum) => {
            let (name, sum, expected) = (rate.name, mils(sum), mils(expected));
            Some(format!(
                "{name}: the library charges a row of {} {sum}, not {expected}",
                whole(most)
            ))
        }
        Err(why) => Some(format!("{}: a row is {why}", rate.name)),
    }
}

/// Why the library's book cannot be the dearest of what is asked for, or these not the rates of the
/// classes.
pub fn doubt(asked: &Asked, file: &[u8], done: &Dearest, rates: &[Rate]) -> Option<String> {
    rows(asked, file, done.length)
        .or_else(|| cost(file, done.total))
        .or_else(|| lines::hold(None, &[total(asked, done.total)]).err())
        .or_else(|| rates.iter().find_map(|of| rate(of, asked.most)))
}

#[cfg(test)]
mod tests {
    use super::super::rates::RATES;
    use super::*;

    /// Two rows of at most 7 are asked for.
    const ASKED: Asked = Asked { rows: 2, most: 7 };

    /// The bytes of a book of interest rows.
    fn book(rows: &[Row]) -> Vec<u8> {
        let mut book = Book::default();
        book.classes[0] = rows.to_vec();
        book.encode().unwrap()
    }

    /// A row of the dearest book.
    fn row(amount: u32) -> Row {
        RATES[0].row(amount)
    }

    /// An answer of this length and total.
    fn answer(length: usize, total: u64) -> Dearest {
        let mut answer = Dearest::default();
        (answer.length, answer.total) = (length, total);
        answer
    }

    /// What is told of a file, a length and a total.
    fn told_of(file: &[u8], length: usize, total: u64) -> Option<String> {
        doubt(&ASKED, file, &answer(length, total), &RATES)
    }

    /// What is told of a book and a total, whose length is its own.
    fn told(rows: &[Row], total: u64) -> Option<String> {
        let file = book(rows);
        told_of(&file, file.len(), total)
    }

    #[test]
    fn the_right_book_is_not_doubted() {
        assert_eq!(told(&[row(7); 2], 2_870_000), None);
        let none = Asked { rows: 0, most: 1 };
        assert_eq!(doubt(&none, &[0; 8], &answer(8, 0), &RATES), None);
    }

    /// Catches rows, amounts and lengths that are not counted.
    #[test]
    fn another_book_is_told() {
        let why = "the library's book has 1 rows, not 2";
        assert_eq!(told(&[row(7)], 1_435_000).unwrap(), why);
        let why = "an amount of 8 is over 7";
        assert_eq!(told(&[row(7), row(8)], 3_075_000).unwrap(), why);
        let short = row(0).with_sides(0, 1_000);
        let why = "an amount of 1,000 is over 7";
        assert_eq!(told(&[short, row(7)], 206_435_000).unwrap(), why);
        let (mut file, total) = (book(&[row(7); 2]), 2_870_000);
        let why = "the library tells of 24 bytes, not 40";
        assert_eq!(told_of(&file, 24, total).unwrap(), why);
        file[0] = 3;
        let why = "the library's book has other counts than rows";
        assert_eq!(told_of(&file, 40, total).unwrap(), why);
    }

    /// Catches a total that is not held to the book, and one that is held to nothing else: government
    /// paper is charged what is told of it, and is not the dearest.
    #[test]
    fn another_total_is_told() {
        let why = "the library charges its book 2,870.000, and tells 1,750.000";
        assert_eq!(told(&[row(7); 2], 1_750_000).unwrap(), why);
        let why = "does not add up: total 1,750.000 = 2 rows x 7 x 205.000";
        assert_eq!(told(&[row(7).with_kind(1); 2], 1_750_000).unwrap(), why);
        let why = "the library's book is refused 8 row 0: both amounts zero or both nonzero";
        assert_eq!(told(&[row(0), row(7)], 0).unwrap(), why);
    }

    /// Catches a rate that no row has, and one that is not looked at.
    #[test]
    fn each_rate_is_the_charge_of_a_row() {
        for of in &RATES {
            assert!([1, 7, 1_000_000_000]
                .iter()
                .all(|most| rate(of, *most).is_none()));
        }
        // The right book beside a rate that is none.
        let (file, mut rates) = (book(&[row(7); 2]), RATES);
        rates[1].general = 79_999;
        let why = "equity: the library charges a row of 7 1,120.000, not 1,119.993";
        let told = doubt(&ASKED, &file, &answer(40, 2_870_000), &rates);
        assert_eq!(told.unwrap(), why);
        assert!(rate(&RATES[3], 0)
            .unwrap()
            .starts_with("commodity: a row is refused 8"));
    }
}
