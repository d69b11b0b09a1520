//! The books that netting and offsetting in one call are timed on: swap legs of few issues that pair
//! off once they are netted, and of as many issues as rows that do not.

use super::cases::{count, Case, Whose};
use super::legs::{amounts_apart, leg};
use books::{Book, Random, Row};

/// What the first row of an issue has, as many times as the number of its pair: more than all others
/// of the issue together, so that no two pairs are alike.
const FIRST: u32 = 100_000;

/// Rows of so many issues, two of which are always a pair: the rows of the one are those of the
/// other, with their sides exchanged.
fn paired(random: &mut Random, rows: usize, issues: u16) -> Vec<Row> {
    let pairs = usize::from(issues) / 2;
    let models: Vec<Row> = (0..pairs).map(|_| leg(random, 1)).collect();
    let of_pair = |at: usize| {
        let (pair, issue) = (at % pairs, 1 + 2 * (at % pairs) as u16);
        let row = match at / pairs {
            0 => models[pair].with_sides(FIRST * (pair as u32 + 1), 0),
            _ if random.once_in(2) => models[pair].with_sides(1 + random.below(1_000) as u32, 0),
            _ => models[pair].with_sides(0, 1 + random.below(1_000) as u32),
        };
        [row.with_issue(issue), row.mirrored().with_issue(issue + 1)]
    };
    let mut legs: Vec<Row> = (0..rows / 2).flat_map(of_pair).collect();
    random.shuffle(&mut legs);
    legs
}

/// Legs of different amounts and issues.
fn issues_apart(random: &mut Random, rows: usize, _: u16) -> Vec<Row> {
    let legs = amounts_apart(random, rows).into_iter().zip(1..);
    legs.map(|(leg, issue)| leg.with_issue(issue)).collect()
}

/// How the rows of a sort are made, by how many there are and of how many issues.
type Legs = fn(&mut Random, usize, u16) -> Vec<Row>;

/// The sorts: their names, their rows, their issues and these.
const SORTS: [(&str, usize, u16, Legs); 4] = [
    ("no rows", 0, 2, paired),
    ("10 issues in pairs", 40, 10, paired),
    ("60 issues in pairs", 4_000, 60, paired),
    ("4,000 issues, amounts apart", 4_000, 4_000, issues_apart),
];

/// The books of a sort.
fn books(rows: usize, issues: u16, legs: Legs) -> Vec<Vec<u8>> {
    let book = |seed: u64| {
        let mut random = Random::of_case(30_000 + u64::from(issues), seed);
        let mut book = Book::default();
        book.classes[0] = legs(&mut random, rows, issues);
        book.encode().expect("at most 4,000 rows")
    };
    (0..count(rows)).map(book).collect()
}

/// All cases; no call on pairs of books is timed on them.
pub fn cases() -> impl Iterator<Item = Case> {
    SORTS.into_iter().map(|(name, rows, issues, legs)| Case {
        name,
        rows,
        books: books(rows, issues, legs),
        pairs: [vec![], vec![]],
        table: second::table().to_vec(),
        whose: Whose::Both,
    })
}

#[cfg(test)]
mod tests {
    use super::*;
    use std::collections::HashSet;

    /// Catches books with other rows or issues than their lines say, or that are refused; issues
    /// that do not pair off, and some that do though they should not.
    #[test]
    fn books_are_what_their_lines_say() {
        for (case, (name, rows, issues, _)) in cases().zip(SORTS) {
            assert_eq!((case.name, case.rows), (name, rows));
            assert!(case.books.len().is_power_of_two());
            for bytes in &case.books {
                let book = Book::decode(bytes).unwrap();
                assert_eq!(book.classes.each_ref().map(Vec::len), [rows, 0, 0, 0]);
                let numbers: HashSet<u16> = book.classes[0].iter().map(|row| row.issue).collect();
                let issues = usize::from(issues).min(rows);
                assert_eq!((numbers.len(), numbers.contains(&0)), (issues, false));
                let netted = second::netted(bytes).unwrap();
                assert_eq!(netted.len(), 8 + 16 * issues, "{name}");
                let left = second::net_and_offset_book(bytes).unwrap();
                let stay = if name.ends_with("apart") { rows } else { 0 };
                assert_eq!(left.len(), 8 + 16 * stay, "{name}");
            }
        }
    }

    /// Catches the last line without the comparisons and searches that it is there for.
    #[test]
    fn issues_apart_take_every_comparison() {
        let last = cases().last().unwrap();
        assert!(last
            .books
            .iter()
            .all(|book| second::comparisons(book) == 7_998_000));
    }
}
