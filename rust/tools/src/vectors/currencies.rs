//! The charges of each currency: books of several, and joins of them.

use super::build::{all_calls, book, call, clean, join, only, row, Call, Case};
use books::Row;

/// Rows of a currency in two zones, of three kinds.
fn three_kinds(group: u8) -> [Row; 3] {
    let amount = 10 + i64::from(group);
    [
        row(group, 2, 60, 299, amount),
        row(group, 3, 500, 300, -3 * amount),
        row(group, 1, 270, 300, 2 * amount),
    ]
}

/// The first and the last currency and two between, with their rows apart, and rows of the
/// other classes in the same groups.
fn several() -> Vec<u8> {
    let currencies = [31, 7, 0, 16].map(three_kinds);
    let mixed: Vec<Row> = (0..3)
        .flat_map(|at| currencies.map(|rows| rows[at]))
        .collect();
    let other = |kind, days| [31, 0, 5].map(|group| row(group, kind, days, 0, -40));
    book([&mixed, &other(1, 0), &other(0, 0), &other(0, 400)])
}

/// A row or more in each of the 32 currencies: no two of their charges are equal.
fn all_currencies() -> Vec<Row> {
    (0..32).flat_map(three_kinds).collect()
}

/// Currencies with rows at weight 0 alone: other paper, which still has its specific charge,
/// and government paper, which costs nothing; and one that has a row beyond.
fn at_weight_0() -> Vec<u8> {
    let rows = [
        row(3, 3, 30, 300, -5),
        row(3, 3, 0, 299, 8),
        row(4, 1, 30, 299, 9),
        row(9, 2, 30, 300, 70),
        row(9, 2, 31, 300, 70),
    ];
    only(0, &rows)
}

/// Longs of one currency and shorts of another at the same days: they do not offset.
fn opposite() -> Vec<u8> {
    let rows = [row(1, 3, 60, 800, 10), row(2, 3, 60, 800, -10)];
    only(0, &rows)
}

/// Two books and their rows joined: E4 in one currency, which then uses three zones and costs
/// more; two zones in another, which costs less.
fn beside_three_zones([three, two]: [u8; 2]) -> [Vec<u8>; 3] {
    let bond = |group, days, net| row(group, 1, days, 800, net);
    let other = |days, net| row(two, 3, days, 800, net);
    let a = [bond(three, 270, 75), other(270, 75), bond(three, 900, -30)];
    let b = [
        other(900, -30),
        bond(three, 900, 30),
        bond(three, 6000, -10),
    ];
    [only(0, &a), only(0, &b), only(0, &[a, b].concat())]
}

/// Books of many currencies that are refused: their figures are all zero.
fn refused() -> Vec<Vec<u8>> {
    let rows = all_currencies();
    let late = [&rows[..], &[clean(0).with_group(32)]].concat();
    let mut short = only(0, &rows);
    short.pop();
    vec![
        only(0, &late),
        book([&rows, &[clean(1)], &[], &[clean(3).with_sides(1, 1)]]),
        short,
    ]
}

/// All of them.
pub fn cases() -> Vec<Case> {
    let mut cases = all_calls(&several(), &[0, 7, 31]);
    cases.extend(all_calls(&only(0, &all_currencies()), &[0, 15, 31]));
    cases.extend(all_calls(&at_weight_0(), &[3, 4, 9]));
    cases.push(call(Call::Charge, &opposite()));
    for groups in [[7, 8], [31, 0], [0, 31]] {
        let [a, b, joined] = beside_three_zones(groups);
        cases.push(join(&a, &b, joined.len()));
        cases.extend([a, b, joined].map(|book| call(Call::Charge, &book)));
    }
    for book in refused() {
        cases.push(call(Call::Charge, &book));
    }
    cases
}

#[cfg(test)]
mod tests {
    use super::super::{answers::lines, cases as all_cases};
    use super::*;
    use std::collections::BTreeSet;

    /// The specific and the general charges that are stored of a book, by currency.
    fn lists(book: &[u8]) -> [Vec<u64>; 2] {
        let charge = call(Call::Charge, book);
        assert!(all_cases(1).contains(&charge));
        let line = lines(&[charge]);
        let figures: Vec<u64> = line
            .split_whitespace()
            .skip(1)
            .map(|figure| figure.parse().unwrap())
            .collect();
        assert_eq!(figures.len(), 75);
        let lists = [&figures[11..43], &figures[43..]].map(<[u64]>::to_vec);
        let sums = lists.each_ref().map(|list| list.iter().sum::<u64>());
        assert_eq!(sums, figures[3..5]);
        lists
    }

    /// The currencies that a list has charges of.
    fn charged(list: &[u64]) -> Vec<usize> {
        (0..list.len()).filter(|group| list[*group] != 0).collect()
    }

    /// Catches stored figures that an exchange of two currencies, a list shifted by one or
    /// the two lists exchanged would leave as they are.
    #[test]
    fn every_currency_has_charges_of_its_own() {
        let [specifics, generals] = lists(&only(0, &all_currencies()));
        let both = [specifics, generals].concat();
        let different: BTreeSet<u64> = both.iter().copied().collect();
        assert_eq!(different.len(), 64);
        assert!(!different.contains(&0));
        let [specifics, generals] = lists(&several());
        assert_eq!(charged(&specifics), [0, 7, 16, 31]);
        assert_eq!(charged(&generals), [0, 7, 16, 31]);
    }

    /// 13 at 8%; 70 twice at 0.25%, and one of them at 0.20%.
    #[test]
    fn at_weight_0_the_specific_charge_stands() {
        let [specifics, generals] = lists(&at_weight_0());
        assert_eq!(charged(&specifics), [3, 9]);
        assert_eq!((specifics[3], specifics[9]), (1_040_000, 350_000));
        assert_eq!(charged(&generals), [9]);
        assert_eq!(generals[9], 140_000);
    }

    #[test]
    fn currencies_do_not_offset_each_other() {
        let [specifics, generals] = lists(&opposite());
        assert_eq!((specifics[1], specifics[2]), (800_000, 800_000));
        assert_eq!((generals[1], generals[2]), (20_000, 20_000));
    }

    /// E4 costs 210,000 twice and 577,500 joined; 5,250 weighted on either side cost 525,000
    /// twice and 210,000 joined.
    #[test]
    fn a_joined_currency_is_dearer_and_another_is_not() {
        for groups in [[7, 8], [31, 0], [0, 31]] {
            let books = beside_three_zones(groups);
            let [a, b, joined] = books.each_ref().map(|book| lists(book)[1].clone());
            let [three, two] = groups.map(usize::from);
            assert_eq!(
                [a[three], b[three], joined[three]],
                [210_000, 210_000, 577_500]
            );
            assert_eq!([a[two], b[two], joined[two]], [525_000, 525_000, 210_000]);
            let [a, b, joined] = books;
            assert!(all_cases(1).contains(&join(&a, &b, joined.len())));
        }
    }

    #[test]
    fn refused_books_have_no_charges() {
        let numbers = [(4, 96), (8, 97), (3, 0)];
        assert_eq!(refused().len(), numbers.len());
        for (book, (number, row)) in refused().iter().zip(numbers) {
            assert_eq!(lists(book), [[0; 32]; 2]);
            let line = lines(&[call(Call::Charge, book)]);
            assert!(line.starts_with(&format!("charge {number} {row} 0 ")));
        }
    }
}
