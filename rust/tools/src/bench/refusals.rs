//! The books whose refusals are shown while it is timed: of all classes, with a bad last row, and
//! accepted, so that every row is looked at.

use super::cases::{accepted, spoil, Case, Whose};

/// The sorts: their names, their rows, and whether the last row is bad.
const SORTS: [(&str, usize, bool); 3] = [
    ("last row bad", 40, true),
    ("last row bad", 4_000, true),
    ("accepted", 4_000, false),
];

/// All cases; no call on pairs of books is timed on them.
pub fn cases() -> impl Iterator<Item = Case> {
    SORTS.into_iter().map(|(name, rows, bad)| {
        let mut case = accepted(name, rows, &[0, 1, 2, 3]);
        if bad {
            case.books.iter_mut().for_each(|book| spoil(book));
        }
        Case {
            pairs: [vec![], vec![]],
            whose: Whose::Shortest,
            ..case
        }
    })
}

#[cfg(test)]
mod tests {
    use super::*;

    /// Catches books that are refused before their last row, or are not as their lines say.
    #[test]
    fn books_are_what_their_lines_say() {
        for (case, (name, rows, bad)) in cases().zip(SORTS) {
            assert_eq!((case.name, case.rows), (name, rows));
            assert!(case.books.len().is_power_of_two());
            for book in &case.books {
                assert_eq!(book.len(), 8 + 16 * rows);
                let refusal = second::check(book);
                let expected = if bad { (9, rows as u64 - 1) } else { (0, 0) };
                assert_eq!((refusal.number, refusal.row), expected);
            }
        }
    }
}
