//! The floating-rate notes that a run has seen: accepted, joined, refused in each way and place.

use books::names::FLOATING;
use books::{Book, Row};
use second::Refusal;
use std::fmt;

/// Counts of first books, and of joins.
#[derive(Default)]
pub struct Floating {
    /// Accepted books that have notes.
    pub accepted: u64,
    /// Joins made of two books that both have notes.
    pub joined: u64,
    /// Books refused with 15 at their first row, at one between, and at their last.
    pub places: [u64; 3],
    /// Books refused with 15 for a late fixing alone, for a late final maturity alone, and for a
    /// final maturity before the fixing alone.
    pub ways: [u64; 3],
    /// Books refused with 5 for kind 4 in another class than interest.
    pub elsewhere: u64,
}

/// Whether a book has notes.
fn has_notes(bytes: &[u8]) -> bool {
    let book = Book::decode(bytes).unwrap_or_default();
    book.classes[0].iter().any(|row| row.kind == FLOATING)
}

/// The place of a row among so many: first, between, last.
fn place(row: usize, rows: usize) -> usize {
    match row {
        0 => 0,
        _ if row + 1 < rows => 1,
        _ => 2,
    }
}

/// The only way in which a note is broken, if it is one.
fn only_way(note: &Row) -> Option<usize> {
    let (fixing, maturity) = (note.days, note.coupon);
    let ways = [fixing > 360, maturity > 36_000, maturity < fixing];
    let broken: Vec<usize> = (0..3).filter(|way| ways[*way]).collect();
    match broken[..] {
        [way] => Some(way),
        _ => None,
    }
}

impl Floating {
    /// Counts a first book and its refusal.
    pub fn count(&mut self, bytes: &[u8], refusal: &Refusal) {
        self.accepted += u64::from(refusal.accepted() && has_notes(bytes));
        let book = Book::decode(bytes).unwrap_or_default();
        let row = refusal.row as usize;
        match (refusal.number, book.row(row)) {
            (15, Some((_, note))) => {
                self.places[place(row, book.rows())] += 1;
                if let Some(way) = only_way(&note) {
                    self.ways[way] += 1;
                }
            }
            (5, Some((_, row))) => self.elsewhere += u64::from(row.kind == FLOATING),
            _ => (),
        }
    }

    /// Counts a join that was made.
    pub fn count_join(&mut self, books: [&[u8]; 2]) {
        self.joined += u64::from(books.into_iter().all(has_notes));
    }

    /// Every count beside its name.
    pub fn named(&self) -> [(String, u64); 9] {
        let ([first, between, last], [fixing, maturity, order]) = (self.places, self.ways);
        [
            ("books accepted with floating rates", self.accepted),
            ("joins of books with floating rates", self.joined),
            ("books refused 15 at their first row", first),
            ("books refused 15 between first and last", between),
            ("books refused 15 at their last row", last),
            ("books refused 15 for the fixing alone", fixing),
            ("books refused 15 for the final maturity alone", maturity),
            ("books refused 15 for their order alone", order),
            (
                "books refused 5 for kind 4 of another class",
                self.elsewhere,
            ),
        ]
        .map(|(name, count)| (name.to_string(), count))
    }
}

impl fmt::Display for Floating {
    fn fmt(&self, out: &mut fmt::Formatter) -> fmt::Result {
        let ([first, between, last], [fixing, maturity, order]) = (self.places, self.ways);
        let (accepted, joined, elsewhere) = (self.accepted, self.joined, self.elsewhere);
        write!(
            out,
            "floating rates: books accepted {accepted}, joins of two with them {joined}; refused \
             15 at the first row {first}, between {between}, at the last {last}; for fixing alone \
             {fixing}, final maturity alone {maturity}, their order alone {order}; refused 5 in \
             another class {elsewhere}"
        )
    }
}

#[cfg(test)]
mod tests {
    use super::*;

    /// A book of interest rows and stock.
    fn book(rows: &[Row], stock: &[Row]) -> Vec<u8> {
        let mut book = Book::default();
        (book.classes[0], book.classes[3]) = (rows.to_vec(), stock.to_vec());
        book.encode().unwrap()
    }

    /// A note, long 1.
    fn note(fixing: u16, maturity: u16) -> Row {
        let row = Row::default().with_kind(FLOATING).with_sides(1, 0);
        row.with_days(fixing).with_coupon(maturity)
    }

    /// What is counted of a book, in the order of the names.
    fn counted(bytes: &[u8]) -> [u64; 9] {
        let mut floating = Floating::default();
        floating.count(bytes, &second::check(bytes));
        floating.named().map(|(_, count)| count)
    }

    /// Catches a place or a way that is counted for another, and one of two ways that is counted
    /// as if alone.
    #[test]
    fn notes_count_by_place_and_way() {
        let (good, bond) = (note(90, 2_880), note(90, 300).with_kind(1));
        let stock = bond.with_kind(0).with_coupon(0);
        assert_eq!(
            counted(&book(&[good, bond], &[])),
            [1, 0, 0, 0, 0, 0, 0, 0, 0]
        );
        assert_eq!(counted(&book(&[bond], &[stock])), [0; 9]);
        let (late, long, early) = (note(361, 361), note(0, 36_001), note(90, 89));
        let cases = [
            (book(&[late, good], &[]), [0, 0, 1, 0, 0, 1, 0, 0, 0]),
            (book(&[late], &[]), [0, 0, 1, 0, 0, 1, 0, 0, 0]),
            (book(&[good, long, bond], &[]), [0, 0, 0, 1, 0, 0, 1, 0, 0]),
            (book(&[good, early], &[]), [0, 0, 0, 0, 1, 0, 0, 1, 0]),
            (book(&[good, early], &[stock]), [0, 0, 0, 1, 0, 0, 0, 1, 0]),
            (book(&[note(361, 36_001)], &[]), [0, 0, 1, 0, 0, 0, 0, 0, 0]),
            (book(&[note(361, 360)], &[]), [0, 0, 1, 0, 0, 0, 0, 0, 0]),
            (
                book(&[bond], &[stock.with_kind(4)]),
                [0, 0, 0, 0, 0, 0, 0, 0, 1],
            ),
            (book(&[bond.with_kind(5)], &[]), [0; 9]),
            (book(&[note(361, 361).with_group(32)], &[]), [0; 9]),
        ];
        for (bytes, expected) in cases {
            assert_eq!(counted(&bytes), expected);
        }
    }

    /// Catches a join that counts for notes of one book.
    #[test]
    fn joins_count_where_both_books_have_notes() {
        let (with, without) = (book(&[note(0, 0)], &[]), book(&[], &[]));
        let mut floating = Floating::default();
        floating.count_join([&with, &without]);
        floating.count_join([&without, &with]);
        assert_eq!(floating.joined, 0);
        floating.count_join([&with, &with]);
        assert_eq!(floating.joined, 1);
    }
}
