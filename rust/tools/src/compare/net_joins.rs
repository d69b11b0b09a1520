//! What a run has seen of the claims about netting: books that cost less netted, and netted joins
//! with the premise of two zones, and without it.

use super::premises::{at_most_two, zones};
use books::Book;
use second::{netted, Report};
use std::collections::HashSet;
use std::fmt;

/// Counts of books, and of joins of which all three books can be netted.
#[derive(Default)]
pub struct NetJoins {
    /// First books that cost less netted, in their total.
    pub cheaper: u64,
    /// Joins with at most two zones in each currency and an issue of both books.
    pub joins: u64,
    /// Those of them that cost less than the two netted books together.
    pub less: u64,
    /// Joins with three zones in a currency that cost more netted than the two netted.
    pub dearer: u64,
    /// Those of them whose netted book uses at most two: the premise is of the rows before.
    pub vanished: u64,
}

/// The classes and numbers of the issues of a book.
fn issues(book: &[u8]) -> HashSet<(usize, u16)> {
    let book = Book::decode(book).unwrap_or_default();
    let classes = book.classes.iter().enumerate();
    let rows = classes.flat_map(|(class, rows)| rows.iter().map(move |row| (class, row.issue)));
    rows.filter(|(_, issue)| *issue != 0).collect()
}

/// Whether each currency of a book uses at most two zones.
fn two_zones(book: &[u8]) -> bool {
    zones(book).iter().all(at_most_two)
}

impl NetJoins {
    /// Counts a first book under an accepted table.
    pub fn count(&mut self, book: &[u8], table: &[u8]) {
        if let Ok(once) = netted(book) {
            let [own, after] = [book, &once].map(|book| second::charge(book, table).total);
            self.cheaper += u64::from(after < own);
        }
    }

    /// Counts a join under an accepted table: A, B and the joined book.
    pub fn count_join(&mut self, [a, b, joined]: [&[u8]; 3], table: &[u8]) {
        let (Ok(net_a), Ok(net_b), Ok(whole)) = (netted(a), netted(b), netted(joined)) else {
            return;
        };
        let shared = !issues(a).is_disjoint(&issues(b));
        let charge = |book: &[u8]| second::charge(book, table);
        let [of_a, of_b, of_whole] = [&net_a, &net_b, &whole].map(|book| charge(book));
        let general = |report: &Report| report.interest_general;
        if two_zones(joined) {
            self.joins += u64::from(shared);
            self.less += u64::from(shared && of_whole.total < of_a.total + of_b.total);
        } else if general(&of_whole) > general(&of_a) + general(&of_b) {
            self.dearer += 1;
            self.vanished += u64::from(two_zones(&whole));
        }
    }

    /// Every count beside its name.
    pub fn named(&self) -> [(String, u64); 5] {
        [
            ("books cheaper when netted", self.cheaper),
            ("netted joins under the zone premise", self.joins),
            ("netted joins cheaper than their parts", self.less),
            ("netted joins dearer with three zones", self.dearer),
            ("netted joins dearer with a zone netted away", self.vanished),
        ]
        .map(|(name, count)| (name.to_string(), count))
    }
}

impl fmt::Display for NetJoins {
    fn fmt(&self, out: &mut fmt::Formatter) -> fmt::Result {
        let (cheaper, joins, less) = (self.cheaper, self.joins, self.less);
        let (dearer, vanished) = (self.dearer, self.vanished);
        write!(
            out,
            "books cheaper when netted {cheaper}; netted joins with at most two zones {joins}, of \
             these cheaper than their parts {less}; dearer, with three zones, {dearer}, of these with \
             a zone netted away {vanished}"
        )
    }
}

#[cfg(test)]
mod tests {
    use super::*;
    use books::Row;

    /// A book of government bonds of currency 7: issue, days, long and short.
    fn book(rows: &[(u16, u16, u32, u32)]) -> Vec<u8> {
        let row = Row::default().with_group(7).with_kind(1).with_coupon(800);
        let mut book = Book::default();
        book.classes[0] = rows
            .iter()
            .map(|(issue, days, long, short)| {
                let row = row.with_issue(*issue).with_days(*days);
                row.with_sides(*long, *short)
            })
            .collect();
        book.encode().unwrap()
    }

    /// What is counted of two books and their join.
    fn counted(a: &[u8], b: &[u8]) -> [u64; 5] {
        let mut joined = vec![0; a.len() + b.len() - 8];
        second::join(a, b, &mut joined);
        let (mut nets, table) = (NetJoins::default(), second::table());
        nets.count(a, &table);
        nets.count_join([a, b, &joined], &table);
        nets.named().map(|(_, count)| count)
    }

    /// Catches joins that count without an issue of both, or without the premise; and E4, whose
    /// middle zone is netted away, that does not count where it is one issue.
    #[test]
    fn joins_count_by_their_zones() {
        let (long, short) = (book(&[(5, 900, 30, 0)]), book(&[(5, 900, 0, 10)]));
        assert_eq!(counted(&long, &short), [0, 1, 1, 0, 0]);
        assert_eq!(counted(&long, &long), [0, 1, 0, 0, 0]);
        assert_eq!(counted(&long, &book(&[(6, 900, 0, 10)])), [0; 5]);
        assert_eq!(counted(&long, &book(&[(5, 901, 0, 10)])), [0; 5]);
        let both = book(&[(5, 900, 30, 0), (5, 900, 0, 10)]);
        assert_eq!(counted(&both, &[0; 8]), [1, 0, 0, 0, 0]);
        let e4 = |one: u16, other: u16| {
            let a = book(&[(0, 270, 75, 0), (one, 900, 0, 30)]);
            let b = book(&[(other, 900, 30, 0), (0, 6000, 0, 10)]);
            counted(&a, &b)
        };
        assert_eq!(e4(5, 5), [0, 0, 0, 1, 1]);
        assert_eq!(e4(5, 6), [0, 0, 0, 1, 0]);
    }
}
