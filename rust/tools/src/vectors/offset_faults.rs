//! Refusals of offsetting: the contents, bad rows of each class before and after legs that offset,
//! floating-rate notes, and 12 behind them all.

use super::build::{book, clean, offset, only, row, Case};
use super::faults::{bad_rows, contents};
use super::offsets::leg;
use books::names::FLOATING;
use books::Row;

/// Two legs that offset each other.
fn pair() -> [Row; 2] {
    [leg(900, 5), leg(910, -5)]
}

/// Books with a pair and a bad row of each class: before it in the file where it can be, and after
/// it at the end of the class.
fn bad_books() -> Vec<Vec<u8>> {
    let mut books = Vec::new();
    for class in 0..4 {
        for bad in bad_rows(class).into_iter().step_by(2) {
            let mut bodies: [Vec<Row>; 4] = [0, 1, 2, 3].map(|class| vec![clean(class)]);
            bodies[0].extend(pair());
            bodies[class].push(bad);
            books.push(book(bodies.each_ref().map(|body| &body[..])));
        }
    }
    for bad in bad_rows(0).into_iter().skip(1).step_by(2) {
        books.push(only(0, &[&[bad][..], &pair()].concat()));
    }
    books
}

/// Legs that are broken themselves and would else fit: past the last day, the last coupon and the
/// last amount, on two sides, and of a currency that there is not.
pub fn broken_legs() -> Vec<Vec<u8>> {
    let [one, other] = pair();
    let pairs = [
        [one.with_days(36_000), other.with_days(36_001)],
        [one.with_coupon(10_000), other.with_coupon(10_001)],
        [
            one.with_sides(1_000_000_001, 0),
            other.with_sides(0, 1_000_000_001),
        ],
        [one, other.with_sides(5, 5)],
        [one.with_group(32), other.with_group(32)],
        [one.with_kind(0), other.with_kind(0)],
        [one.with_sides(0, 0), other.with_sides(0, 0)],
    ];
    let mut books: Vec<Vec<u8>> = pairs.iter().map(|rows| only(0, rows)).collect();
    for (fixing, maturity) in [(361, 900), (90, 89), (90, 36_001)] {
        let note = row(7, FLOATING, fixing, maturity, 5);
        books.push(only(0, &[&pair()[..], &[note]].concat()));
        books.push(only(0, &[&[note][..], &pair()].concat()));
    }
    // The first bad row is told, whatever its number.
    books.push(only(0, &[one, other.with_days(36_001), one.with_group(32)]));
    books.push(only(0, &[one.with_group(32), other.with_days(36_001)]));
    books
}

/// All of them: without room and with it.
pub fn cases() -> Vec<Case> {
    let mut cases: Vec<Case> = Vec::new();
    for book in &broken_legs() {
        cases.extend([0, 8, book.len()].map(|room| offset(book, room)));
    }
    let others = [contents(), bad_books()].concat();
    cases.extend(
        others
            .iter()
            .map(|book| offset(book, book.len().min(65_536))),
    );
    cases
}

#[cfg(test)]
mod tests {
    use super::*;

    /// Catches books that are refused for another reason than they are stored for.
    #[test]
    fn refusals_by_hand() {
        let books = broken_legs();
        let refused = books
            .iter()
            .map(|book| second::offset_book(book).unwrap_err());
        let told: Vec<[u64; 2]> = refused.map(|told| [told.number, told.row]).collect();
        let notes = [[15, 2], [15, 0]].repeat(3);
        let legs = [[6, 1], [7, 1], [9, 0], [8, 1], [4, 0], [5, 0], [8, 0]];
        assert_eq!(told, [&legs[..], &notes, &[[6, 1], [4, 0]]].concat());
    }

    /// Every bad row is told as it is by the check, with its row.
    #[test]
    fn bad_rows_are_told_as_by_the_check() {
        let books = bad_books();
        assert_eq!(books.len(), 4 * 7 + 6);
        for book in books {
            let refusal = second::offset_book(&book).unwrap_err();
            assert_eq!(refusal, second::check(&book));
            assert!((4..=9).contains(&refusal.number), "{refusal:?}");
        }
    }
}
