//! The dearest books that are written while it is timed, each of another largest amount.

use super::cases::{count, Case, Whose};

/// The sorts: their names and their rows.
const SORTS: [(&str, usize); 3] = [("no rows", 0), ("rows alike", 40), ("rows alike", 4_000)];

/// The largest amounts of so many books, from 1 to 1,000,000,000, with all bytes in use.
fn spread(count: u64) -> Vec<usize> {
    let step = 999_999_999 / (count - 1);
    (0..count).map(|at| (1 + at * step) as usize).collect()
}

/// The largest amounts of the books of a case, in their order.
pub fn amounts(case: &Case) -> Vec<usize> {
    spread(case.books.len() as u64)
}

/// All cases: the books are those that the call must write. No call on pairs of books is timed on them.
pub fn cases() -> impl Iterator<Item = Case> {
    SORTS.into_iter().map(|(name, rows)| {
        let book = |most: usize| second::dearest_book(rows as u64, most as u64);
        let amounts = spread(count(rows)).into_iter();
        let books: Result<_, _> = amounts.map(book).collect();
        Case {
            name,
            rows,
            books: books.expect("amounts that are taken"),
            pairs: [vec![], vec![]],
            table: second::table().to_vec(),
            whose: Whose::Dearest,
        }
    })
}

#[cfg(test)]
mod tests {
    use super::*;
    use books::Book;

    /// Catches books of other rows than their lines say, or of one amount alone.
    #[test]
    fn books_are_what_their_lines_say() {
        for (case, (name, rows)) in cases().zip(SORTS) {
            assert_eq!((case.name, case.rows), (name, rows));
            assert!(case.books.len().is_power_of_two());
            for (bytes, most) in case.books.iter().zip(amounts(&case)) {
                let book = Book::decode(bytes).unwrap();
                assert_eq!(book.classes.each_ref().map(Vec::len), [rows, 0, 0, 0]);
                assert!(book.classes[0].iter().all(|row| row.long as usize == most));
            }
            let mut amounts = amounts(&case);
            assert!((1..=1_000_000_000).contains(&amounts[amounts.len() - 1]));
            amounts.dedup();
            assert_eq!(amounts.len(), case.books.len());
        }
    }
}
