//! The small banks that a run has seen: charged, joined, and refused with 20 in each way and place
//! of the order.

use second::{Refusal, SmallBank};
use std::fmt;

/// Counts of first books, and of joins.
#[derive(Default)]
pub struct SmallBanks {
    /// Accepted books with both charges above zero.
    pub charged: u64,
    /// Accepted books whose commodities cost another sum by the maturity ladder.
    pub unlike_ladder: u64,
    /// Books by the number of their refusal, 1 to 9 or 20.
    pub refused: [u64; 21],
    /// Books refused with 20 for interest alone, for equity alone, and for both.
    pub ways: [u64; 3],
    /// Books refused with 20 whose first bad row is of interest or equity, and of another class.
    pub before_row: [u64; 2],
    /// Books refused with 2, and with 3, that count interest or equity rows too.
    pub after_contents: [u64; 2],
    /// Joins made of two accepted books with both charges above zero.
    pub joins: u64,
    /// Joins of accepted books that cost less than the two, in each charge.
    pub cheaper: u64,
}

/// The numbers of this call's refusals.
fn numbers() -> impl Iterator<Item = usize> {
    (1..=9).chain([20])
}

/// The counts of interest and of equity rows in a file that has them.
fn not_small(book: &[u8]) -> [u64; 2] {
    let count = |at: usize| u64::from(u16::from_le_bytes([book[at], book[at + 1]]));
    [count(0), count(2)]
}

/// Whether both charges are above zero.
fn both(bank: &SmallBank) -> bool {
    bank.exchange > 0 && bank.commodity > 0
}

impl SmallBanks {
    /// Counts a first book and its refusal in other calls.
    pub fn count(&mut self, book: &[u8], refusal: &Refusal) {
        let bank = second::small_bank(book);
        match bank.refusal.number {
            0 => {
                let ladder = second::charge(book, &second::table()).commodity;
                self.charged += u64::from(both(&bank));
                self.unlike_ladder += u64::from(bank.commodity != ladder);
            }
            number => self.count_refused(book, number as usize, refusal),
        }
    }

    /// Counts a refused book.
    fn count_refused(&mut self, book: &[u8], number: usize, refusal: &Refusal) {
        self.refused[number] += 1;
        if number == 1 {
            return;
        }
        let [interest, equity] = not_small(book);
        match number {
            2 | 3 => self.after_contents[number - 2] += u64::from(interest + equity > 0),
            20 => {
                let way = 2 * usize::from(interest * equity > 0) + usize::from(interest == 0);
                self.ways[way] += 1;
                let class = usize::from(refusal.row >= interest + equity);
                self.before_row[class] += u64::from(!refusal.accepted());
            }
            _ => (),
        }
    }

    /// Counts a join that was made: A, B and the joined book.
    pub fn count_join(&mut self, books: [&[u8]; 3]) {
        let [a, b, joined] = books.map(second::small_bank);
        if joined.refusal.accepted() {
            let less = [
                joined.exchange < a.exchange + b.exchange,
                joined.commodity < a.commodity + b.commodity,
            ];
            self.joins += u64::from(both(&a) && both(&b));
            self.cheaper += u64::from(less == [true; 2]);
        }
    }

    /// Every count beside its name.
    pub fn named(&self) -> Vec<(String, u64)> {
        let ([interest, equity, both], [own, other]) = (self.ways, self.before_row);
        let [rows, length] = self.after_contents;
        let plain = [
            ("small banks charged", self.charged),
            ("small banks unlike the ladder", self.unlike_ladder),
            ("small banks refused 20 for interest alone", interest),
            ("small banks refused 20 for equity alone", equity),
            ("small banks refused 20 for both", both),
            ("small banks refused 20 before such a bad row", own),
            ("small banks refused 20 before another bad row", other),
            ("small banks refused 2 before 20", rows),
            ("small banks refused 3 before 20", length),
            ("small banks joined", self.joins),
            ("small banks cheaper when joined", self.cheaper),
        ];
        let plain = plain.map(|(name, count)| (name.to_string(), count));
        let refused = numbers().map(|number| {
            (
                format!("small banks refused {number}"),
                self.refused[number],
            )
        });
        plain.into_iter().chain(refused).collect()
    }
}

impl fmt::Display for SmallBanks {
    fn fmt(&self, out: &mut fmt::Formatter) -> fmt::Result {
        let ([interest, equity, both], [own, other]) = (self.ways, self.before_row);
        let [rows, length] = self.after_contents;
        let refused: Vec<String> = numbers()
            .map(|number| format!("{number}: {}", self.refused[number]))
            .collect();
        write!(
            out,
            "small banks: charged {}, unlike the ladder {}, joined {}, of these cheaper {}; refused \
             {}\nsmall banks refused 20 for interest alone {interest}, equity alone {equity}, both \
             {both}; before a bad row of these {own}, of others {other}; 2 before 20: {rows}, 3 \
             before 20: {length}",
            self.charged,
            self.unlike_ladder,
            self.joins,
            self.cheaper,
            refused.join(", ")
        )
    }
}

#[cfg(test)]
mod tests {
    use super::*;
    use books::{Book, Row};

    /// A row that its class accepts, long.
    fn row(class: usize) -> Row {
        let kind = u8::from(class < 2);
        Row::default()
            .with_group(7)
            .with_kind(kind)
            .with_sides(5, 0)
    }

    /// A book of so many rows of each class.
    fn book(counts: [usize; 4]) -> Book {
        Book {
            classes: [0, 1, 2, 3].map(|class| vec![row(class); counts[class]]),
        }
    }

    /// What is counted of a book, without the numbers of refusals.
    fn counted(bytes: &[u8]) -> Vec<u64> {
        let mut banks = SmallBanks::default();
        banks.count(bytes, &second::check(bytes));
        let refused = second::small_bank(bytes).refusal.number as usize;
        assert_eq!(banks.refused.iter().sum::<u64>(), u64::from(refused > 0));
        assert_eq!(banks.refused[refused], u64::from(refused > 0));
        let named = banks.named();
        named[..9].iter().map(|(_, count)| *count).collect()
    }

    /// Catches a way or a place that is counted for another.
    #[test]
    fn books_count_by_their_way_and_place() {
        let bytes = |counts| book(counts).encode().unwrap();
        let spoiled = |class: usize| {
            let mut book = book([1, 1, 1, 1]);
            book.classes[class][0].group = 32;
            book.encode().unwrap()
        };
        let short = |counts| bytes(counts)[..23].to_vec();
        let cases = [
            (bytes([0, 0, 1, 1]), [1, 1, 0, 0, 0, 0, 0, 0, 0]),
            (bytes([0, 0, 1, 0]), [0, 0, 0, 0, 0, 0, 0, 0, 0]),
            (bytes([1, 0, 1, 0]), [0, 0, 1, 0, 0, 0, 0, 0, 0]),
            (bytes([0, 2, 0, 1]), [0, 0, 0, 1, 0, 0, 0, 0, 0]),
            (bytes([1, 1, 0, 0]), [0, 0, 0, 0, 1, 0, 0, 0, 0]),
            (spoiled(0), [0, 0, 0, 0, 1, 1, 0, 0, 0]),
            (spoiled(1), [0, 0, 0, 0, 1, 1, 0, 0, 0]),
            (spoiled(2), [0, 0, 0, 0, 1, 0, 1, 0, 0]),
            (spoiled(3), [0, 0, 0, 0, 1, 0, 1, 0, 0]),
            (vec![255; 8], [0, 0, 0, 0, 0, 0, 0, 1, 0]),
            (vec![0, 0, 0, 0, 255, 255, 0, 0], [0; 9]),
            (short([1, 0, 0, 0]), [0, 0, 0, 0, 0, 0, 0, 0, 1]),
            (short([0, 0, 0, 1]), [0; 9]),
            (vec![255; 7], [0; 9]),
        ];
        for (bytes, expected) in cases {
            assert_eq!(counted(&bytes), expected, "{bytes:?}");
        }
    }

    /// Catches a join that counts for one book with charges, or as cheaper in one charge alone.
    #[test]
    fn joins_count_where_both_books_are_charged() {
        let seen = |a: &Book, b: &Book| {
            let [a, b] = [a, b].map(|book| book.encode().unwrap());
            let mut joined = vec![0; a.len() + b.len() - 8];
            second::join(&a, &b, &mut joined);
            let mut banks = SmallBanks::default();
            banks.count_join([&a, &b, &joined]);
            [banks.joins, banks.cheaper]
        };
        let whole = book([0, 0, 1, 1]);
        let mirrored = |class: usize, of: &Book| {
            let mut book = of.clone();
            book.classes[class][0] = row(class).mirrored();
            book
        };
        assert_eq!(seen(&whole, &whole), [1, 0]);
        assert_eq!(seen(&whole, &book([0, 0, 1, 0])), [0, 0]);
        assert_eq!(seen(&whole, &book([1, 0, 1, 1])), [0, 0]);
        assert_eq!(seen(&whole, &mirrored(2, &whole)), [1, 0]);
        assert_eq!(seen(&whole, &mirrored(3, &whole)), [1, 0]);
        assert_eq!(seen(&whole, &mirrored(2, &mirrored(3, &whole))), [1, 1]);
    }
}
