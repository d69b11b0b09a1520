//! The comparisons of netting once more, and the most that there can be.

use books::{Book, Row};

/// The most comparisons that netting a book of so many rows can take: one for each two of them.
pub fn bound(rows: usize) -> u64 {
    let rows = rows as u64;
    rows * rows.saturating_sub(1) / 2
}

/// The comparisons of a class: each numbered row with the numbers kept so far, to the first equal.
fn of_class(rows: &[Row]) -> usize {
    let (mut kept, mut made) = (Vec::new(), 0);
    for issue in rows.iter().map(|row| row.issue).filter(|issue| *issue != 0) {
        let found = kept.iter().position(|earlier| *earlier == issue);
        made += found.map_or(kept.len(), |place| place + 1);
        kept.extend(found.is_none().then_some(issue));
    }
    made
}

/// The comparisons of a book.
pub fn counted(book: &Book) -> u64 {
    let classes = book.classes.iter();
    classes.map(|rows| of_class(rows) as u64).sum()
}

#[cfg(test)]
mod tests {
    use super::*;

    /// A book with rows of these issues in its first and its last class.
    fn book(first: &[u16], last: &[u16]) -> Book {
        let rows = |issues: &[u16]| {
            let issues = issues.iter();
            issues
                .map(|issue| Row::default().with_issue(*issue))
                .collect()
        };
        Book {
            classes: [rows(first), vec![], vec![], rows(last)],
        }
    }

    #[test]
    fn one_for_each_two_rows() {
        assert_eq!([0, 1, 2, 3, 8].map(bound), [0, 0, 1, 3, 28]);
        assert_eq!(bound(4_000), 7_998_000);
    }

    /// Catches number 0, an equal number or a class that is counted wrongly.
    #[test]
    fn comparisons_by_hand() {
        for (first, last, made) in [
            (&[][..], &[][..], 0),
            (&[5, 5, 6], &[], 2),
            (&[5, 6, 6], &[], 3),
            (&[5, 6], &[5, 6], 2),
            (&[0, 5, 0, 5], &[0, 0], 1),
            (&[5, 6, 7, 8], &[], 6),
        ] {
            assert_eq!(counted(&book(first, last)), made, "{first:?} {last:?}");
        }
    }
}
