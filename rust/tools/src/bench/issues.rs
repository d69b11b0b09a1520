//! The books that netting is timed on: interest rows of few issues and of many.

use super::cases::{count, Case, Whose};
use books::generate::{row, Shape};
use books::{Book, Random, Row};

/// The line whose rows are all of different issues, 4,000 of them.
pub const ALL_APART: &str = "4,000 issues";

/// The sorts: their names, their rows and their issues. A row of each issue comes first, then the
/// numbers are drawn.
const SORTS: [(&str, usize, u16); 7] = [
    ("no rows", 0, 1),
    ("1 issue", 40, 1),
    ("10 issues", 40, 10),
    ("40 issues", 40, 40),
    ("1 issue", 4_000, 1),
    ("60 issues", 4_000, 60),
    (ALL_APART, 4_000, 4_000),
];

/// The rows of a book: each like the others of its issue, with a small amount on either side.
fn rows(random: &mut Random, rows: usize, issues: u16) -> Vec<Row> {
    let shape = Shape {
        rows,
        groups: (0..32).collect(),
        without: [None; 32],
    };
    let models: Vec<Row> = (1..=issues)
        .map(|issue| row(random, 0, &shape).with_issue(issue))
        .collect();
    let one = |at: usize| {
        let model = match at < models.len() {
            true => models[at],
            false => random.pick(&models),
        };
        let amount = 1 + random.below(1_000) as u32;
        match random.once_in(2) {
            true => model.with_sides(amount, 0),
            false => model.with_sides(0, amount),
        }
    };
    (0..rows).map(one).collect()
}

/// The books of a sort.
fn books(of: usize, issues: u16) -> Vec<Vec<u8>> {
    let book = |seed: u64| {
        let mut random = Random::of_case(10_000 + u64::from(issues), seed);
        let mut book = Book::default();
        book.classes[0] = rows(&mut random, of, issues);
        book.encode().expect("at most 4,000 rows")
    };
    (0..count(of)).map(book).collect()
}

/// A case of books; no call on pairs is timed on it.
fn case(name: &'static str, rows: usize, books: Vec<Vec<u8>>) -> Case {
    Case {
        name,
        rows,
        books,
        pairs: [vec![], vec![]],
        table: second::table().to_vec(),
        whose: Whose::Net,
    }
}

/// Makes the last row unlike the first of its issue: it is refused once all rows are read.
fn spoil(book: &mut [u8]) {
    let (first, last) = (8, book.len() - 16);
    book.copy_within(first..first + 8, last);
    book[last] = (book[last] + 1) % 32;
}

/// All cases.
pub fn cases() -> Vec<Case> {
    let sorts = SORTS.iter();
    let mut cases: Vec<Case> = sorts
        .map(|(name, rows, issues)| case(name, *rows, books(*rows, *issues)))
        .collect();
    let mut refused = books(4_000, 60);
    refused.iter_mut().for_each(|book| spoil(book));
    cases.push(case("60 issues, refused", 4_000, refused));
    cases
}

#[cfg(test)]
mod tests {
    use super::*;
    use std::collections::HashSet;

    /// Catches books with other numbers of issues than their lines say, or that are refused.
    #[test]
    fn books_have_the_issues_that_their_lines_say() {
        for (case, (name, rows, issues)) in cases().iter().zip(SORTS) {
            assert_eq!((case.name, case.rows), (name, rows));
            for bytes in &case.books {
                let book = Book::decode(bytes).unwrap();
                assert_eq!(book.classes.each_ref().map(Vec::len), [rows, 0, 0, 0]);
                let numbers: HashSet<u16> = book.classes[0].iter().map(|row| row.issue).collect();
                assert_eq!(numbers.len(), usize::from(issues).min(rows));
                assert!(!numbers.contains(&0));
                assert!(second::netted(bytes).is_ok());
            }
        }
    }

    /// Catches a line by which a comparison is timed and whose books take fewer of them.
    #[test]
    fn books_of_different_issues_take_every_comparison() {
        let cases = cases();
        let [apart] = &cases
            .iter()
            .filter(|case| case.name == ALL_APART)
            .collect::<Vec<_>>()[..]
        else {
            panic!("not one line");
        };
        assert_eq!(apart.rows, 4_000);
        for bytes in &apart.books {
            assert_eq!(second::comparisons(bytes), 7_998_000);
        }
    }

    /// Catches a book that is refused before its last row, or for something else.
    #[test]
    fn one_line_is_refused_at_the_last_row() {
        let cases = cases();
        let refused = &cases[cases.len() - 1];
        assert_eq!(refused.name, "60 issues, refused");
        for bytes in &refused.books {
            let refusal = second::netted(bytes).unwrap_err();
            assert_eq!((refusal.number, refusal.row), (13, 3_999));
        }
    }

    #[test]
    fn the_numbers_of_books_are_powers_of_two() {
        assert!(cases()
            .iter()
            .all(|case| case.books.len().is_power_of_two()));
    }
}
