//! What a run has asked of the dearest book, and the books that it has held to the most that they can
//! cost.

use super::asked::Asked;
use super::case::Case;
use super::dearest_laws::{dear, limits};
use super::dearest_sorts::{of_amount, of_rows, refused};
use super::dearest_sorts::{AMOUNTS, DEAR, FIRST, REFUSED, ROOMS, ROWS};
use super::nets::{add, listed};
use std::fmt;

/// Counts of calls and of books.
#[derive(Default)]
pub struct Dearest {
    /// By the number of rows.
    pub rows: [u64; 6],
    /// By the largest amount.
    pub amounts: [u64; 6],
    /// Refused calls.
    pub refused: [u64; 5],
    /// Outputs that are just long enough, longer, and one byte short, where the numbers are taken.
    pub rooms: [u64; 3],
    /// Accepted first books with rows, by what they cost of the most that they can.
    pub first: [u64; 2],
    /// Books that were made to be dear, by the same.
    pub dear: [u64; 3],
}

/// What a book costs and what the dearest of as many rows of at most as much costs, where it is accepted
/// and has rows.
fn costs(bytes: &[u8]) -> Option<[u64; 2]> {
    let (rows, most) = limits(bytes)?;
    let report = second::charge(bytes, &second::table());
    let mut out = vec![0; 8 + 16 * rows];
    let dearest = second::dearest(rows as u64, most as u64, &mut out);
    report
        .refusal
        .accepted()
        .then_some([report.total, dearest.total])
}

impl Dearest {
    /// Counts the call of a case.
    fn count_call(&mut self, asked: &Asked) {
        add(&mut self.rows, of_rows(asked.rows));
        add(&mut self.amounts, of_amount(asked.most));
        add(&mut self.refused, refused(asked));
        let (room, length) = (asked.room, asked.length());
        let rooms = [room == length, room > length, room + 1 == length];
        add(&mut self.rooms, rooms.map(|so| so && asked.taken()));
    }

    /// Counts the call of a case, its first book, and the dear book that is made for it.
    pub fn count(&mut self, case: &Case) {
        self.count_call(&case.dearest);
        if let Some([cost, most]) = costs(&case.a) {
            add(&mut self.first, [2 * cost < most, 2 * cost >= most]);
        }
        let dear = dear(case).and_then(|bytes| costs(&bytes));
        if let Some([cost, most]) = dear {
            let nearly = cost >= most / 10 * 9;
            add(
                &mut self.dear,
                [!nearly, nearly && cost < most, cost == most],
            );
        }
    }

    /// Every count beside its name.
    pub fn named(&self) -> Vec<(String, u64)> {
        let named = |what: &str, names: &[&str], counts: &[u64]| -> Vec<(String, u64)> {
            let counts = names.iter().zip(counts);
            let named = counts.map(|(name, count)| (format!("{what} {name}"), *count));
            named.collect()
        };
        [
            named("dearest books asked for with", &ROWS, &self.rows),
            named(
                "dearest books asked for of at most",
                &AMOUNTS,
                &self.amounts,
            ),
            named("dearest books refused", &REFUSED, &self.refused),
            named("outputs of the dearest book", &ROOMS, &self.rooms),
            named("books held to the most, which cost", &FIRST, &self.first),
            named("dear books held to the most, which cost", &DEAR, &self.dear),
        ]
        .concat()
    }
}

impl fmt::Display for Dearest {
    fn fmt(&self, out: &mut fmt::Formatter) -> fmt::Result {
        write!(
            out,
            "dearest books asked for with {}; of at most {}; refused {}; outputs {}\n\
             held to the most, books {}; dear books {}",
            listed(&ROWS, &self.rows),
            listed(&AMOUNTS, &self.amounts),
            listed(&REFUSED, &self.refused),
            listed(&ROOMS, &self.rooms),
            listed(&FIRST, &self.first),
            listed(&DEAR, &self.dear)
        )
    }
}

#[cfg(test)]
mod tests {
    use super::super::asked::MOST_AMOUNT;
    use super::*;
    use books::{Book, Row};

    /// What is counted of a call.
    fn counted(rows: usize, most: usize, room: usize) -> Vec<String> {
        let mut dearest = Dearest::default();
        dearest.count_call(&Asked { rows, most, room });
        let seen = dearest.named().into_iter().filter(|(_, count)| *count > 0);
        seen.map(|(name, _)| name).collect()
    }

    /// Catches a call that is counted for another number, refusal or output.
    #[test]
    fn calls_count_by_their_numbers() {
        let with = |rows: &str| format!("dearest books asked for with {rows}");
        let of = |most: &str| format!("dearest books asked for of at most {most}");
        let refused = |why: &str| format!("dearest books refused {why}");
        let output = |room: &str| format!("outputs of the dearest book {room}");
        let exact = output("just long enough");
        assert_eq!(counted(0, 1, 8), [with("no rows"), of("1"), exact.clone()]);
        assert_eq!(counted(1, 2, 24), [with("1 row"), of("some"), exact]);
        let [short, longer] = [output("one byte short"), output("longer")];
        let full = with("3,999 or 4,000");
        let most = of("1,000,000,000");
        let twelve = refused("12");
        let expected = [full.clone(), most.clone(), twelve.clone(), short];
        assert_eq!(counted(4_000, MOST_AMOUNT, 64_007), expected);
        assert_eq!(counted(3_999, MOST_AMOUNT, 0), [full, most, twelve]);
        let expected = [with("some rows"), of("some"), longer];
        assert_eq!(counted(3_998, 999_999_999, 65_536), expected);
        let rows = refused("22 for the rows alone");
        assert_eq!(
            counted(4_001, 1, 64_024),
            [with("4,001"), of("1"), rows.clone()]
        );
        let without = refused("22 without room");
        assert_eq!(
            counted(4_002, 1, 64_023),
            [with("more"), of("1"), rows, without.clone()]
        );
        let amount = refused("22 for the amount alone");
        assert_eq!(
            counted(1, 0, 23),
            [with("1 row"), of("0"), amount.clone(), without]
        );
        let over = of("one more");
        assert_eq!(
            counted(0, MOST_AMOUNT + 1, 8),
            [with("no rows"), over, amount]
        );
        let both = [with("4,001"), of("much more"), refused("22 for both")];
        assert_eq!(counted(4_001, 1 << 32, 64_024), both);
    }

    /// Catches a cost that is held to other rows or amounts: other paper, short 9 and long 8.
    #[test]
    fn costs_are_held_to_as_many_rows_of_the_largest_amount() {
        let row = Row::default().with_kind(3).with_days(36_000);
        let mut book = Book::default();
        book.classes[0] = vec![row.with_sides(0, 9), row.with_group(1).with_sides(8, 0)];
        let bytes = book.encode().unwrap();
        assert_eq!(costs(&bytes), Some([17 * 205_000, 18 * 205_000]));
        assert_eq!(costs(&[0; 8]), None);
        assert_eq!(costs(&bytes[..39]), None);
        book.classes[0][0].group = 32;
        assert_eq!(costs(&book.encode().unwrap()), None);
    }
}
