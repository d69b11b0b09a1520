//! What a run has seen of the comparisons of netting: as many as there can be, none, and books in
//! which a wrong count is another than the right one.

use super::case::Case;
use super::issues::issues;
use crate::net::bound;
use books::{Book, Row};
use std::fmt;

/// What is told apart of a count.
const SORTS: [&str; 8] = [
    "as many as there can be",
    "none of several rows",
    "others with rows turned round",
    "with a net of zero before other issues",
    "in several classes",
    "beside rows numbered 0",
    "past 16 bits",
    "not told without room",
];

/// Counts of first books that are netted and, last, of those refused with 12.
#[derive(Default)]
pub struct Comparisons {
    pub sorts: [u64; 8],
}

/// The comparisons of a book with each class changed.
fn changed(book: &Book, change: impl Fn(usize, &[Row]) -> Vec<Row>) -> u64 {
    let changed = Book {
        classes: [0, 1, 2, 3].map(|class| change(class, &book.classes[class])),
    };
    second::comparisons(&changed.encode().expect("no more rows than before"))
}

/// Whether an issue that nets to zero comes before another of its class, which is compared with it.
fn zero_before(book: &Book) -> bool {
    let issues = issues(book);
    let mut zeros = issues.iter().enumerate().filter(|(_, one)| one.net() == 0);
    zeros.any(|(at, zero)| issues[at + 1..].iter().any(|one| one.class == zero.class))
}

/// How many classes have comparisons.
fn classes(book: &Book) -> usize {
    let alone = |class: &usize| {
        let rows = |own: usize, rows: &[Row]| match own == *class {
            true => rows.to_vec(),
            false => vec![],
        };
        changed(book, rows) > 0
    };
    (0..4).filter(alone).count()
}

/// Of which sorts the comparisons of a netted book are.
fn sorts(book: &Book, made: u64) -> [bool; 7] {
    let most = bound(book.rows());
    let turned = changed(book, |_, rows| rows.iter().rev().copied().collect());
    let unnumbered = book.classes.iter().flatten().any(|row| row.issue == 0);
    [
        most > 0 && made == most,
        most > 0 && made == 0,
        turned != made,
        zero_before(book),
        classes(book) > 1,
        made > 0 && unnumbered,
        made > u64::from(u16::MAX),
    ]
}

impl Comparisons {
    /// Counts the first book of a case and its output.
    pub fn count(&mut self, case: &Case) {
        let book = Book::decode(&case.a).unwrap_or_default();
        let netted = second::net(&case.a, &mut vec![0; case.net_room]);
        let mut seen = [false; 8];
        match netted.refusal.number {
            0 => seen[..7].copy_from_slice(&sorts(&book, netted.comparisons)),
            12 => seen[7] = second::comparisons(&case.a) > 0,
            _ => (),
        }
        let counts = self.sorts.iter_mut().zip(seen);
        counts.for_each(|(count, seen)| *count += u64::from(seen));
    }

    /// Every count beside its name.
    pub fn named(&self) -> Vec<(String, u64)> {
        let counts = SORTS.iter().zip(self.sorts);
        let named = counts.map(|(name, count)| (format!("comparisons {name}"), count));
        named.collect()
    }
}

impl fmt::Display for Comparisons {
    fn fmt(&self, out: &mut fmt::Formatter) -> fmt::Result {
        let counts = SORTS.iter().zip(self.sorts);
        let counts: Vec<String> = counts
            .map(|(name, count)| format!("{name} {count}"))
            .collect();
        write!(out, "comparisons {}", counts.join(", "))
    }
}

#[cfg(test)]
mod tests {
    use super::*;

    /// The sorts that are counted of a book of interest and equity rows, by number and net, with
    /// so much room.
    fn counted(interest: &[(u16, i64)], equity: &[(u16, i64)], room: usize) -> Vec<String> {
        let row = |(issue, net): &(u16, i64)| {
            let [long, short] = [0.max(*net), 0.max(-*net)].map(|side| side as u32);
            let row = Row::default().with_kind(1).with_issue(*issue);
            row.with_sides(long, short)
        };
        let mut book = Book::default();
        book.classes[0] = interest.iter().map(row).collect();
        book.classes[1] = equity.iter().map(row).collect();
        let mut comparisons = Comparisons::default();
        comparisons.count(&Case {
            a: book.encode().unwrap(),
            net_room: room,
            ..Case::new(1, 1)
        });
        let seen = comparisons.named().into_iter();
        let seen = seen.filter(|(_, count)| *count > 0);
        seen.map(|(name, _)| name).collect()
    }

    /// Catches a sort that is counted for another, or where it is not.
    #[test]
    fn books_count_by_their_sorts() {
        let one = [(5, 1), (5, 1)];
        type Rows<'a> = &'a [(u16, i64)];
        let cases: [(Rows, Rows, &[usize]); 11] = [
            (&[], &[], &[]),
            (&[(5, 1)], &[], &[]),
            (&one, &[], &[0]),
            (&[(5, 1), (6, 1), (7, 1)], &[], &[0]),
            (&[(5, 1), (5, 1), (5, 1)], &[], &[]),
            (&[(0, 1), (0, 1)], &[], &[1]),
            (&[(5, 1)], &[(5, 1)], &[1]),
            (&[(5, 1), (5, 1), (6, 1)], &[], &[2]),
            (&[(5, 1), (5, -1), (6, 1)], &one, &[2, 3, 4]),
            (&[(6, 1), (5, 1), (5, -1)], &[], &[0, 2]),
            (&[(5, 1), (0, 1), (5, 1)], &[], &[5]),
        ];
        for (interest, equity, expected) in cases {
            let names = expected
                .iter()
                .map(|at| format!("comparisons {}", SORTS[*at]));
            let seen = counted(interest, equity, 1_000);
            assert!(names.eq(seen.iter().cloned()), "{interest:?}: {seen:?}");
        }
        // 363 rows take 65,703, and 362 not more than 65,535.
        let many: Vec<(u16, i64)> = (1..=363).map(|issue| (issue, 1)).collect();
        let all = [SORTS[0], SORTS[6]].map(|sort| format!("comparisons {sort}"));
        assert_eq!(counted(&many, &[], 6_000), all);
        assert_eq!(counted(&many[1..], &[], 6_000), all[..1]);
    }

    /// Catches books that count without room, where none are told, or that count for a refusal of
    /// their rows.
    #[test]
    fn without_room_none_are_told() {
        let without = [format!("comparisons {}", SORTS[7])];
        assert_eq!(counted(&[(5, 1), (5, 1), (6, 1)], &[], 39), without);
        assert_eq!(counted(&[(5, 1), (0, 1)], &[], 8), [""; 0]);
        assert_eq!(counted(&[(5, 1), (5, 0)], &[], 8), [""; 0]);
    }
}
