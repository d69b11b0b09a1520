//! Random books of swap legs, some of them split over several rows of one issue: netting makes legs
//! that fit, and takes away legs that did.

use crate::legs::{Legs, LEG};
use crate::{Book, Random, Row};

/// Issue numbers that differ in one byte, in both, and at the ends.
const NUMBERS: [u16; 8] = [1, 2, 255, 256, 257, 511, 512, 65_535];

/// The row with another amount on its side.
fn with_amount(row: Row, amount: u32) -> Row {
    match row.long {
        0 => row.with_sides(0, amount),
        _ => row.with_sides(amount, 0),
    }
}

/// Rows of a leg's issue: together they are the leg, or nothing, or another amount, which of large
/// ones is often too large.
fn parts(random: &mut Random, leg: Row) -> Vec<Row> {
    let amount = leg.long.max(leg.short);
    match random.below(10) {
        0 => vec![leg],
        1 => vec![leg, leg.mirrored()],
        2 => vec![leg, leg, leg.mirrored()],
        3 => vec![leg, leg],
        5..=8 if amount > 500_000_000 => vec![leg, leg],
        4 => vec![leg, with_amount(leg, 1).mirrored()],
        _ if amount == 1 => vec![leg, leg.mirrored(), leg],
        _ => {
            let part = 1 + random.below(u64::from(amount) - 1) as u32;
            vec![with_amount(leg, part), with_amount(leg, amount - part)]
        }
    }
}

/// An accepted book of so many rows, and more: each leg may be split, and may have its other side as
/// a row of its own; the interest rows stand in any order. Rows of other kinds have no number, and
/// those of other classes each one of its own, which legs may have too.
pub fn book(random: &mut Random, rows: usize) -> Book {
    let mut book = Legs::new(random).book(random, rows);
    let mut numbers = NUMBERS.to_vec();
    random.shuffle(&mut numbers);
    let mut interest = Vec::new();
    for row in std::mem::take(&mut book.classes[0]) {
        if row.kind == LEG && random.once_in(2) {
            interest.push(row.mirrored().with_issue(0));
        }
        match numbers.pop() {
            Some(number) if row.kind == LEG && random.once_in(2) => {
                interest.extend(parts(random, row.with_issue(number)));
            }
            _ => interest.push(row.with_issue(0)),
        }
    }
    random.shuffle(&mut interest);
    book.classes[0] = interest;
    for rows in &mut book.classes[1..] {
        let numbered = rows.iter_mut().zip(NUMBERS);
        numbered.for_each(|(row, number)| row.issue = number);
    }
    book
}

#[cfg(test)]
mod tests {
    use super::*;
    use std::collections::{HashMap, HashSet};

    /// The net of a row.
    fn net(row: &Row) -> i64 {
        i64::from(row.long) - i64::from(row.short)
    }

    /// Catches rows of one issue that are unlike each other, and issues that are all of one sort:
    /// one row, two and three; nets that are nothing, and that are another leg's.
    #[test]
    fn rows_of_an_issue_are_alike_and_of_all_sorts() {
        let (mut counts, mut nothing, mut made) = (HashSet::new(), 0, 0);
        for case in 0..400 {
            let mut random = Random::of_case(41, case);
            let book = book(&mut random, 8);
            let mut issues: HashMap<u16, Vec<Row>> = HashMap::new();
            for row in book.classes[0].iter().filter(|row| row.issue != 0) {
                issues.entry(row.issue).or_default().push(*row);
            }
            let alone: Vec<i64> = book.classes[0].iter().map(net).collect();
            for rows in issues.values() {
                let bare = |row: &Row| row.with_sides(0, 0);
                assert!(rows.iter().all(|row| bare(row) == bare(&rows[0])));
                assert_eq!(rows[0].kind, LEG);
                let sum: i64 = rows.iter().map(net).sum();
                counts.insert(rows.len());
                nothing += usize::from(sum == 0);
                let whole = rows.iter().any(|row| net(row) == sum);
                made += usize::from(sum != 0 && !whole && alone.contains(&-sum));
            }
        }
        assert_eq!(counts, HashSet::from([1, 2, 3]));
        assert!(nothing > 80 && made > 150, "{nothing} {made}");
    }

    /// Catches parts that come to another amount than they should: of ten, seven to the leg, and one
    /// each to nothing, to twice the leg and to one less.
    #[test]
    fn most_parts_are_the_leg_when_they_are_netted() {
        let leg = Row::default().with_kind(LEG).with_sides(0, 100);
        let mut random = Random::new(43);
        let sums: Vec<i64> = (0..1_000)
            .map(|_| parts(&mut random, leg).iter().map(net).sum())
            .collect();
        let count = |sum: i64| sums.iter().filter(|own| **own == sum).count();
        assert!((640..760).contains(&count(-100)), "{}", count(-100));
        let others = [0, -200, -99].map(count);
        assert!(others.iter().all(|count| (60..140).contains(count)));
        assert_eq!(count(-100) + others.iter().sum::<usize>(), 1_000);
    }

    /// Catches two rows of one number in another class, which might be unlike, and classes without
    /// numbers.
    #[test]
    fn other_classes_have_each_number_once() {
        let mut numbered = 0;
        for case in 0..200 {
            let book = book(&mut Random::of_case(42, case), 12);
            for rows in &book.classes[1..] {
                let numbers: HashSet<u16> = rows.iter().map(|row| row.issue).collect();
                assert!(!numbers.contains(&0) && numbers.len() == rows.len());
                numbered += numbers.len();
            }
        }
        assert!(numbered > 150, "{numbered}");
    }
}
