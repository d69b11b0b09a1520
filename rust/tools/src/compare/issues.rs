//! The issues of a book, for counting what a run has seen of them.

use books::{Book, Row};
use std::collections::HashMap;

/// The most that an issue may net to.
const MOST: u64 = 1_000_000_000;

/// An issue: its class, its number, and its rows with their numbers in the file.
pub struct Issue {
    pub class: usize,
    pub number: u16,
    pub rows: Vec<(usize, Row)>,
}

/// Longs less shorts of a row.
fn signed(row: &Row) -> i64 {
    i64::from(row.long) - i64::from(row.short)
}

/// Group, kind, days and coupon of two rows: which of them differ.
pub fn differ(one: &Row, other: &Row) -> [bool; 4] {
    [
        one.group != other.group,
        one.kind != other.kind,
        one.days != other.days,
        one.coupon != other.coupon,
    ]
}

impl Issue {
    /// The number of the first row.
    pub fn first(&self) -> usize {
        self.rows[0].0
    }

    pub fn net(&self) -> i64 {
        self.rows.iter().map(|(_, row)| signed(row)).sum()
    }

    /// The first row that is unlike the first one, with its number.
    pub fn unlike(&self) -> Option<(usize, Row)> {
        let first = self.rows[0].1;
        let unlike = |(_, row): &&(usize, Row)| differ(&first, row) != [false; 4];
        self.rows.iter().find(unlike).copied()
    }

    /// Whether it nets to too much.
    pub fn over(&self) -> bool {
        self.net().unsigned_abs() > MOST
    }

    /// Whether it nets to the most, in several rows.
    pub fn at_limit(&self) -> bool {
        self.rows.len() > 1 && self.net().unsigned_abs() == MOST
    }

    /// Whether the sum of the first rows is too much somewhere, and the net is not.
    pub fn comes_back(&self) -> bool {
        let mut sum = 0i64;
        let mut passed = self.rows.iter().map(|(_, row)| {
            sum += signed(row);
            sum.unsigned_abs() > MOST
        });
        passed.any(|passed| passed) && !self.over()
    }
}

/// The issues of a book, in the order of their first rows; number 0 is none.
pub fn issues(book: &Book) -> Vec<Issue> {
    let (mut issues, mut places) = (Vec::<Issue>::new(), HashMap::new());
    let classes = book.classes.iter().enumerate();
    let rows = classes.flat_map(|(class, rows)| rows.iter().map(move |row| (class, *row)));
    for (at, (class, row)) in rows.enumerate().filter(|(_, (_, row))| row.issue != 0) {
        let number = row.issue;
        let place = *places.entry((class, number)).or_insert(issues.len());
        if place == issues.len() {
            let rows = Vec::new();
            issues.push(Issue {
                class,
                number,
                rows,
            });
        }
        issues[place].rows.push((at, row));
    }
    issues
}

#[cfg(test)]
mod tests {
    use super::*;

    const MOST: u32 = 1_000_000_000;

    fn row(issue: u16, long: u32, short: u32) -> Row {
        Row::default().with_issue(issue).with_sides(long, short)
    }

    /// Catches number 0 as an issue, one number of two classes as one, and rows counted in their
    /// class.
    #[test]
    fn issues_are_of_a_class_and_a_number() {
        let mut book = Book::default();
        book.classes[1] = vec![row(0, 1, 0), row(5, 2, 0), row(7, 3, 0), row(5, 0, 4)];
        book.classes[3] = vec![row(5, 1, 0), row(0, 1, 0)];
        let found = issues(&book);
        let shown: Vec<(usize, u16, Vec<usize>, i64)> = found
            .iter()
            .map(|issue| {
                let rows = issue.rows.iter().map(|(at, _)| *at).collect();
                (issue.class, issue.number, rows, issue.net())
            })
            .collect();
        let expected = [
            (1, 5, vec![1, 3], -2),
            (1, 7, vec![2], 3),
            (3, 5, vec![4], 1),
        ];
        assert_eq!(shown, expected);
        assert_eq!(found[0].first(), 1);
    }

    /// Catches a limit that is met one too early, or of the sum on the way.
    #[test]
    fn sums_pass_the_limit_and_come_back() {
        let told = |rows: &[Row]| {
            let mut book = Book::default();
            book.classes[0] = rows.to_vec();
            let issue = &issues(&book)[0];
            [issue.over(), issue.at_limit(), issue.comes_back()]
        };
        let (most, back) = (row(5, MOST, 0), row(5, 0, MOST));
        assert_eq!(told(&[most]), [false, false, false]);
        assert_eq!(
            told(&[row(5, MOST - 1, 0), row(5, 1, 0)]),
            [false, true, false]
        );
        assert_eq!(told(&[most, row(5, 1, 0)]), [true, false, false]);
        assert_eq!(told(&[back, back, most]), [false, true, true]);
        assert_eq!(told(&[most, back, back, back]), [true, false, false]);
    }

    /// Catches a field that is not looked at, and a row that is compared with the one before it.
    #[test]
    fn rows_are_unlike_the_first() {
        let mut book = Book::default();
        let (one, other) = (row(5, 1, 0), row(5, 0, 9).with_days(3));
        book.classes[3] = vec![one, one.with_sides(0, 7), other, other];
        assert_eq!(issues(&book)[0].unlike(), Some((2, other)));
        book.classes[3].truncate(2);
        assert_eq!(issues(&book)[0].unlike(), None);
        for (field, changed) in [
            one.with_group(1),
            one.with_kind(1),
            one.with_days(1),
            one.with_coupon(1),
        ]
        .iter()
        .enumerate()
        {
            let mut expected = [false; 4];
            expected[field] = true;
            assert_eq!(differ(&one, changed), expected);
        }
        assert_eq!(differ(&one, &one.with_issue(9)), [false; 4]);
    }
}
