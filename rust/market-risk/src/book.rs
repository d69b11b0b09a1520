//! A book built row by row.

use crate::{check, Refusal, Row};

/// The most rows of an accepted book.
pub const MOST_ROWS: usize = 4_000;

/// The bytes of a row.
const ROW_BYTES: usize = 16;

/// The bytes of a book without rows: the counts of its four classes.
const HEAD_BYTES: usize = 8;

/// The bytes of the largest accepted book.
pub const MOST_BYTES: usize = HEAD_BYTES + ROW_BYTES * MOST_ROWS;

/// A buffer for what a call writes, which takes at most so many bytes where it is accepted. A call that is
/// refused may be given files of any length: no buffer is longer than the largest book.
pub(crate) fn room(bytes: usize) -> Vec<u8> {
    vec![0; bytes.min(MOST_BYTES)]
}

/// A book that is built of rows. Its classes stand in the file's order, interest, equity, foreign exchange,
/// commodities, and within each the rows in the order in which they were added.
///
/// ```
/// use market_risk::{charge, Book, InterestKind, Position, Refusal, Row, Table, GOLD};
/// let mut book = Book::new();
/// let gold = |position| Row::Exchange { currency: GOLD, issue: 0, position };
/// book.add(gold(Position::Short(35)))?;
/// book.add(Row::Interest {
///     currency: 7,
///     kind: InterestKind::Government,
///     days: 60,
///     coupon: 800,
///     issue: 0,
///     position: Position::Long(10),
/// })?;
/// assert_eq!(book.rows(), 2);
/// // Gold costs 8%, and the bond, which comes first in the file, 0.20%.
/// let report = charge(book.bytes()?, &Table::amendment())?;
/// assert_eq!((report.exchange, report.interest_general), (2_800_000, 20_000));
/// // No amount: refused by the library, which names the row as it stands in the file.
/// book.add(gold(Position::Long(0)))?;
/// let refusal = book.bytes().unwrap_err();
/// assert_eq!((refusal.number, refusal.row), (8, 2));
/// # Ok::<(), Refusal>(())
/// ```
#[derive(Clone, Debug, PartialEq, Eq)]
pub struct Book(Vec<u8>);

impl Book {
    /// The book without rows.
    pub fn new() -> Book {
        Book(vec![0; HEAD_BYTES])
    }

    /// The book of some rows; with more than 4,000 it is refused with 2.
    pub fn of(rows: impl IntoIterator<Item = Row>) -> Result<Book, Refusal> {
        let mut book = Book::new();
        for row in rows {
            book.add(row)?;
        }
        Ok(book)
    }

    /// Adds a row behind the others of its class. A book that has 4,000 stays as it is, and the row is refused
    /// with 2, as the library refuses a book that counts more.
    pub fn add(&mut self, row: Row) -> Result<&mut Book, Refusal> {
        if self.rows() == MOST_ROWS {
            let (number, row, book) = (2, 0, 0);
            return Err(Refusal { number, row, book });
        }
        let (class, bytes) = row.encode();
        let before: usize = (0..=class).map(|class| self.count(class)).sum();
        let place = HEAD_BYTES + ROW_BYTES * before;
        self.make_room();
        self.0.splice(place..place, bytes);
        // At most 4,000, which two bytes hold.
        let count = self.count(class) as u16 + 1;
        self.0[2 * class..2 * class + 2].copy_from_slice(&count.to_le_bytes());
        Ok(self)
    }

    /// How many rows there are.
    pub fn rows(&self) -> usize {
        (self.0.len() - HEAD_BYTES) / ROW_BYTES
    }

    /// The bytes of the book, as the calls take them, or the library's refusal, whose row is counted from 0
    /// through the whole file.
    pub fn bytes(&self) -> Result<&[u8], Refusal> {
        check(&self.0).map(|()| &self.0[..])
    }

    /// The rows of a class, 0 to 3.
    fn count(&self, class: usize) -> usize {
        u16::from_le_bytes([self.0[2 * class], self.0[2 * class + 1]]).into()
    }

    /// Room for one more row: where there is none, for twice as much, and never beyond the largest book.
    fn make_room(&mut self) {
        let length = self.0.len();
        if self.0.capacity() - length < ROW_BYTES {
            let twice = (2 * length + ROW_BYTES).min(MOST_BYTES);
            self.0.reserve_exact(twice - length);
        }
    }
}

impl Default for Book {
    fn default() -> Book {
        Book::new()
    }
}
