//! Refusals of netting and then offsetting: those of the book, 13 and 14 where offsetting first
//! would hide them, and 12 behind them all.

use super::build::{net_and_offset, only, Case};
use super::faults::contents;
use super::net_and_offset_orders::legs;
use super::nets::MOST;
use super::offsets::leg;
use super::{net_faults, offset_faults};
use books::Row;

/// Issues that cannot be netted, one row of which fits a leg and would be gone if offsetting came
/// first.
fn hidden() -> Vec<Vec<u8>> {
    [
        &[(900, 7, 100), (910, 0, -100), (905, 7, 40)][..],
        &[(900, 0, 100), (910, 7, -100), (911, 7, 40)],
        &[(900, 7, 100), (910, 7, -100)],
        &[(900, 7, MOST), (900, 7, MOST), (910, 0, -MOST)],
        &[(910, 0, -MOST), (900, 7, MOST), (900, 7, 1)],
        &[
            (900, 7, MOST),
            (900, 7, MOST),
            (910, 8, -MOST),
            (910, 8, -MOST),
        ],
        &[(900, 7, MOST), (900, 7, MOST), (60, 8, 5), (61, 8, -5)],
    ]
    .map(legs)
    .to_vec()
}

/// A bad row after each of them.
fn hidden_and_bad() -> Vec<Vec<u8>> {
    let bad = [
        leg(36_001, 5),
        leg(900, 5).with_group(32),
        leg(900, MOST + 1),
    ];
    let with = |book: &Vec<u8>, bad: Row| {
        let rows = book[8..]
            .chunks(16)
            .map(|row| Row::decode(row.try_into().expect("16 bytes")));
        only(0, &[rows.collect(), vec![bad]].concat())
    };
    let hidden = hidden();
    hidden
        .iter()
        .zip(bad.iter().cycle())
        .map(|(book, bad)| with(book, *bad))
        .collect()
}

/// All of them: without room and with it where an issue is at fault.
pub fn cases() -> Vec<Case> {
    let mut cases: Vec<Case> = Vec::new();
    for book in [hidden(), net_faults::several()].concat() {
        cases.extend([0, 8, book.len()].map(|room| net_and_offset(&book, room)));
    }
    let some = |books: Vec<Vec<u8>>, step: usize| books.into_iter().step_by(step);
    let others = hidden_and_bad()
        .into_iter()
        .chain(contents())
        .chain(some(net_faults::differing(), 2))
        .chain(some(net_faults::over(), 3))
        .chain(some(net_faults::before_issues(), 3))
        .chain(some(offset_faults::broken_legs(), 1));
    cases.extend(others.map(|book| net_and_offset(&book, book.len())));
    cases
}

#[cfg(test)]
mod tests {
    use super::*;

    /// The numbers and rows of some books' refusals.
    fn refusals(books: &[Vec<u8>]) -> Vec<[u64; 2]> {
        let refused = books
            .iter()
            .map(|book| second::net_and_offset_book(book).unwrap_err());
        refused.map(|told| [told.number, told.row]).collect()
    }

    /// Catches books that are refused for another reason than they are stored for, and such as the
    /// other order refuses too.
    #[test]
    fn hidden_issues_by_hand() {
        let expected = [
            [13, 2],
            [13, 2],
            [13, 1],
            [14, 0],
            [14, 1],
            [14, 0],
            [13, 3],
        ];
        assert_eq!(refusals(&hidden()), expected);
        let first = |book: &Vec<u8>| second::netted(&second::offset_book(book).unwrap());
        assert!(hidden()[..6].iter().all(|book| first(book).is_ok()));
        assert_eq!(first(&hidden()[6]).unwrap_err().number, 14);
    }

    /// A bad row comes first, though it stands last.
    #[test]
    fn bad_rows_by_hand() {
        let expected = [[6, 3], [4, 3], [9, 2], [6, 3], [4, 3], [9, 4], [6, 4]];
        assert_eq!(refusals(&hidden_and_bad()), expected);
    }
}
