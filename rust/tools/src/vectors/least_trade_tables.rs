//! Least trades under tables with weights and per cents at their ends, in books without rows of the currency, and in
//! books of 4,000 rows.

use super::build::{only, row, Case};
use super::least_trade_build::{bond, Place};
use super::loaded::{dearest, with_per_cents};

/// Tables at their ends: all matches at 100%, none charged, no weights, the highest weights, and per cents of each
/// its own.
fn tables() -> Vec<Case> {
    let bond = bond(100);
    let [all, free, own] = [[100; 6], [0; 6], [3, 5, 11, 7, 13, 17]].map(with_per_cents);
    let mut none = own;
    none.weights = [0; 15];
    let by = |table: books::tables::Table| bond.by(&table.encode());
    let mut cases = vec![by(none).case(0), by(none).case(u64::MAX)];
    for table in [all, dearest()] {
        let cost = by(table).charge(0);
        cases.extend([cost, cost - 1].map(|limit| by(table).case(limit)));
        cases.push(
            Place {
                side: 0,
                ..by(table)
            }
            .case(cost),
        );
    }
    cases.extend([0, 1, 1_699, 1_700].map(|limit| by(free).case(limit)));
    cases.extend(by(own).around(61));
    cases.extend(Place { band: 2, ..by(own) }.around(21));
    cases
}

/// Books without rows of the currency, or without rows.
fn no_rows() -> Vec<Case> {
    let other = [row(6, 1, 900, 800, 100), row(8, 3, 60, 0, -5)];
    let commodity = only(3, &[row(7, 0, 900, 0, 100)]);
    let mut cases = Vec::new();
    for book in [only(0, &other), commodity, vec![0; 8]] {
        cases.extend([0, u64::MAX].map(|limit| Place::new(&book, 7, 5, 1).case(limit)));
    }
    cases.push(Place::new(&only(0, &other), 31, 14, 0).case(0));
    cases
}

/// 4,000 rows of the largest amount, under document 01's table and under the highest weights with free matches in bands.
fn full() -> Vec<Case> {
    let most = only(0, &vec![row(31, 3, 36_000, 0, 1_000_000_000); 4_000]);
    let place = Place::new(&most, 31, 14, 1);
    let mut table = dearest();
    table.vertical = 0;
    let dear = place.by(&table.encode());
    [
        place.around(0),
        place.around(300),
        dear.around(300),
        vec![place.case(u64::MAX)],
    ]
    .concat()
}

/// All of them.
pub fn cases() -> Vec<Case> {
    [tables(), no_rows(), full()].concat()
}

#[cfg(test)]
mod tests {
    use super::super::least_trade_build::amounts;
    use super::*;

    /// Under the highest per cents nothing helps. Where no match is charged, a unit of 17 is 1,700 less; with 3% within
    /// the band 1,649 less; with 13% between zones a unit of 7 is 609 less.
    #[test]
    fn tables_by_hand() {
        let mut expected = vec![Some(0); 2];
        expected.extend([Some(0), None, Some(0)].repeat(2));
        expected.extend([100, 100, 100, 99].map(Some));
        expected.extend([61, 62, 61, 21, 22, 21].map(Some));
        assert_eq!(amounts(&tables()), expected);
    }

    #[test]
    fn books_without_rows_are_within_every_limit() {
        assert!(amounts(&no_rows()).iter().all(|found| *found == Some(0)));
    }

    #[test]
    fn full_books_by_hand() {
        let expected = [0, 1, 0, 300, 301, 300, 300, 301, 300, 0].map(Some);
        assert_eq!(amounts(&full()), expected);
    }
}
