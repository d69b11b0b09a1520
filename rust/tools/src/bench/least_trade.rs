//! The limits that the least trade is timed under: met at once, on the way, by one amount alone and never,
//! and missed by one mil with every amount.

use super::cases::{Case, Whose};
use super::trades::{book, bottom, dip, longs, of_all_currencies, plateau, CURRENCY};
use books::{Random, Row};

/// How many books of a sort there are. The answer on each is found by trying every amount.
const BOOKS: usize = 4;

/// The sides of a trade.
const LONG: usize = 0;
const SHORT: usize = 1;

/// What is asked of a book: a currency, a band and a side, and the highest charge.
#[derive(Clone, Copy, Debug)]
pub struct Trade {
    pub place: [usize; 3],
    pub limit: u64,
}

/// How the rows of a book are made, by how many there are and its number.
type Rows = fn(&mut Random, usize, usize) -> Vec<Row>;

/// How a limit is made, by the charge with some amount added and the book's number.
type Limit = fn(&dyn Fn(u64) -> u64, usize) -> u64;

/// A sort of books, and where and under which limit a trade is looked for.
struct Sort {
    name: &'static str,
    rows: usize,
    made: Rows,
    band: usize,
    side: usize,
    limit: Limit,
}

/// Limits that are the charges as they are.
const AT_ONCE: Sort = Sort {
    name: "met at once",
    rows: 40,
    made: longs,
    band: 9,
    side: SHORT,
    limit: |charge, _| charge(0),
};

/// All sorts.
const SORTS: [Sort; 7] = [
    AT_ONCE,
    Sort {
        rows: 4_000,
        ..AT_ONCE
    },
    Sort {
        name: "met at once, 32 currencies",
        rows: 4_000,
        made: of_all_currencies,
        ..AT_ONCE
    },
    Sort {
        name: "met midway",
        limit: |charge, at| charge(midway(at)),
        ..AT_ONCE
    },
    Sort {
        name: "met by one amount",
        made: dip,
        band: 5,
        side: LONG,
        limit: |charge, at| charge(bottom(at)),
        ..AT_ONCE
    },
    Sort {
        name: "never met",
        limit: |_, _| 0,
        ..AT_ONCE
    },
    Sort {
        name: "missed by a mil",
        made: plateau,
        band: 10,
        limit: |charge, _| charge(0) - 1,
        ..AT_ONCE
    },
];

/// Some hundred thousands, for the book with this number.
fn midway(at: usize) -> u64 {
    350_000 + 50_000 * at as u64
}

impl Sort {
    /// The book with this number.
    fn book(&self, at: usize) -> Vec<u8> {
        let mut random = Random::of_case(50_000 + self.rows as u64, at as u64);
        let rows = (self.made)(&mut random, self.rows, at);
        book(&mut random, rows)
    }

    /// What is asked of it.
    fn trade(&self, book: &[u8], table: &[u8], at: usize) -> Trade {
        let place = [usize::from(CURRENCY), self.band, self.side];
        let limit = (self.limit)(&|amount| charge_with(book, table, place, amount), at);
        Trade { place, limit }
    }
}

/// The charge with an amount added.
fn charge_with(book: &[u8], table: &[u8], place: [usize; 3], amount: u64) -> u64 {
    let [group, band, side] = place;
    let charge = second::charge_with(book, table, group, band, side, amount);
    charge.expect("an accepted book")
}

/// What is asked of each book of a case, in their order.
pub fn trades(case: &Case) -> Vec<Trade> {
    let own = |sort: &Sort| (sort.name, sort.rows) == (case.name, case.rows);
    let sort = SORTS.into_iter().find(own).expect("a case of these sorts");
    let books = case.books.iter().enumerate();
    let trade = |(at, book): (usize, &Vec<u8>)| sort.trade(book, &case.table, at);
    books.map(trade).collect()
}

/// All cases; no call on pairs of books is timed on them.
pub fn cases() -> impl Iterator<Item = Case> {
    SORTS.into_iter().map(|sort| Case {
        name: sort.name,
        rows: sort.rows,
        books: (0..BOOKS).map(|at| sort.book(at)).collect(),
        pairs: [vec![], vec![]],
        table: second::table().to_vec(),
        whose: Whose::LeastTrade,
    })
}

#[cfg(test)]
mod tests {
    use super::*;
    use books::Book;

    /// The answers on the books of a case: the amount, or none.
    fn answers(case: &Case) -> Vec<Option<u64>> {
        let answer = |(book, trade): (&Vec<u8>, Trade)| {
            let ([group, band, side], limit) = (trade.place, trade.limit);
            let least = second::least_trade(book, &case.table, group, band, side, limit);
            assert!(least.refusal.accepted());
            least.found.then_some(least.amount)
        };
        case.books.iter().zip(trades(case)).map(answer).collect()
    }

    /// Catches limits that are met elsewhere than their lines say, or not at all.
    #[test]
    fn limits_are_met_where_their_lines_say() {
        let expected: [fn(usize) -> Option<u64>; 7] = [
            |_| Some(0),
            |_| Some(0),
            |_| Some(0),
            |at| Some(midway(at)),
            |at| Some(bottom(at)),
            |_| None,
            |_| None,
        ];
        for (case, expected) in cases().zip(expected) {
            let expected: Vec<_> = (0..case.books.len()).map(expected).collect();
            assert_eq!(answers(&case), expected, "{}", case.name);
        }
    }

    /// Catches books of other rows or currencies than their lines say.
    #[test]
    fn books_are_what_their_lines_say() {
        for (case, sort) in cases().zip(SORTS) {
            assert_eq!((case.name, case.rows), (sort.name, sort.rows));
            assert!(case.books.len().is_power_of_two());
            for book in &case.books {
                let rows = Book::decode(book).unwrap().classes;
                assert_eq!(rows.each_ref().map(Vec::len), [sort.rows, 0, 0, 0]);
                let own = rows[0].iter().filter(|row| row.group == CURRENCY).count();
                let all = !case.name.ends_with("currencies");
                assert!(own > 0 && all == (own == sort.rows), "{}", case.name);
            }
        }
    }

    /// What the charge is over the limit, with some amounts added to the first book of a line.
    fn over<const N: usize>(name: &str, amounts: [u64; N]) -> [i128; N] {
        let case = cases().find(|case| case.name == name).unwrap();
        let Trade { place, limit } = trades(&case)[0];
        let charge = |amount| charge_with(&case.books[0], &case.table, place, amount);
        amounts.map(|amount| i128::from(charge(amount)) - i128::from(limit))
    }

    /// Catches a limit that more than one amount meets, and one that is missed by more than a mil.
    #[test]
    fn one_amount_and_one_mil() {
        let near = [bottom(0) - 1, bottom(0), bottom(0) + 1];
        assert_eq!(over("met by one amount", near), [10_500, 0, 7_000]);
        let all = [0, 1, 2, 499_999, 999_999, 1_000_000];
        assert_eq!(over("missed by a mil", all), [1; 6]);
    }
}
