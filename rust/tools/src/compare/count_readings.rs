//! A reading of the count of comparisons, right or wrong on purpose.

use crate::net::bound;
use books::{Book, Row};

/// How comparisons are counted.
#[derive(Clone, Copy, Debug, PartialEq)]
pub enum Count {
    /// As the request says.
    Right,
    /// Number 0 is an issue like others.
    ZeroAnIssue,
    /// Rows without a number are among those that others are compared with.
    UnnumberedKept,
    /// Each row is compared with every earlier one that has a number, not only with those kept.
    EveryEarlier,
    /// The equal one is not counted.
    EqualLeftOut,
    /// The search goes on after the equal one.
    NotStopped,
    /// The search begins at the last issue.
    FromTheLast,
    /// Each row is compared with itself too.
    WithItself,
    /// All classes are searched as one.
    AcrossClasses,
    /// Interest rows alone count.
    InterestAlone,
    /// An issue is forgotten where its rows so far net to zero.
    ZeroForgotten,
    /// Issues that net to zero in the end do not count.
    LeftAlone,
    /// The most that there can be.
    Most,
    /// The count has 16 bits.
    Wrapped,
    /// One too many, of books with so many rows or more.
    OneMoreFrom(usize),
    /// Kept on 12.
    KeptOnTwelve,
    /// Kept on 13 and 14.
    KeptOnIssues,
}

/// Longs less shorts of the rows of an issue.
fn net(rows: &[Row], issue: u16) -> i64 {
    let own = rows.iter().filter(|row| row.issue == issue);
    own.map(|row| i64::from(row.long) - i64::from(row.short))
        .sum()
}

impl Count {
    /// Whether a call that ends with this number gives a count.
    pub fn given(self, number: u64) -> bool {
        match number {
            0 => true,
            12 => self == Count::KeptOnTwelve,
            13 | 14 => self == Count::KeptOnIssues,
            _ => false,
        }
    }

    /// What a row costs that is found in a place, or is not, among so many.
    fn cost(self, found: Option<usize>, kept: usize) -> usize {
        match (self, found) {
            (Count::EqualLeftOut, Some(place)) => place,
            (Count::FromTheLast, Some(place)) => kept - place,
            (Count::WithItself, None) => kept + 1,
            (_, None) | (Count::NotStopped, _) => kept,
            (_, Some(place)) => place + 1,
        }
    }

    /// The count of the rows of a class.
    fn of_class(self, rows: &[Row]) -> u64 {
        let (mut kept, mut made) = (Vec::new(), 0);
        for (at, row) in rows.iter().enumerate() {
            let issue = row.issue;
            if issue == 0 && self != Count::ZeroAnIssue {
                kept.extend((self == Count::UnnumberedKept).then_some(0));
                continue;
            }
            if self == Count::LeftAlone && net(rows, issue) == 0 {
                continue;
            }
            let found = kept.iter().position(|own| *own == issue);
            made += self.cost(found, kept.len());
            if found.is_none() || self == Count::EveryEarlier {
                kept.push(issue);
            }
            if self == Count::ZeroForgotten && net(&rows[..=at], issue) == 0 {
                kept.retain(|own| *own != issue);
            }
        }
        made as u64
    }

    /// The count of a book.
    pub fn of(self, bytes: &[u8]) -> u64 {
        let book = Book::decode(bytes).unwrap_or_default();
        let classes = book.classes.iter();
        let sum: u64 = classes.map(|rows| self.of_class(rows)).sum();
        match self {
            Count::AcrossClasses => self.of_class(&book.classes.concat()),
            Count::InterestAlone => self.of_class(&book.classes[0]),
            Count::Most => bound(book.rows()),
            Count::Wrapped => sum % (1 << 16),
            Count::OneMoreFrom(rows) => sum + u64::from(book.rows() >= rows),
            _ => sum,
        }
    }
}
