//! Random books that are nearly as dear as so many rows of at most so much can be, and some that are.

use crate::{Book, Random, Row};

/// Which rows a dear book has.
#[derive(Clone, Copy, Debug, PartialEq, Eq)]
enum Sort {
    /// The dearest alone: other paper past 7,200 days at a coupon below 300, on one side in each currency
    /// and all of the largest amount.
    Dearest,
    /// The same on any side, and some with a little less.
    Sides,
    /// Rows of one class that are the dearest of it.
    Class(usize),
    /// Rows of all classes, dear and next to dear.
    Any,
}

/// A sort, the dearest one time in four.
fn sort(random: &mut Random) -> Sort {
    match random.below(8) {
        0 | 1 => Sort::Dearest,
        2 | 3 => Sort::Sides,
        class @ 4..=6 => Sort::Class(class as usize - 3),
        _ => Sort::Any,
    }
}

/// The row of a class that costs most, without its amount.
fn dearest(random: &mut Random, class: usize) -> Row {
    let row = Row::default();
    match class {
        0 => {
            let days = random.pick(&[7_201, 7_202, 20_000, 35_999, 36_000]);
            let coupon = random.pick(&[0, 1, 299]);
            row.with_kind(3).with_days(days).with_coupon(coupon)
        }
        1 => row.with_kind(1),
        3 => row.with_days(random.pick(&[0, 1, 29, 30])),
        _ => row,
    }
}

/// One that costs a little less: of another kind, a band nearer, or at the other coupon.
fn less_dear(random: &mut Random, class: usize) -> Row {
    let row = dearest(random, class);
    match (class, random.below(4)) {
        (0, 0) => row.with_days(7_200),
        (0, 1) => row.with_coupon(300),
        (0, 2) => row.with_kind(1 + random.below(2) as u8),
        // A floating-rate note, with a final maturity in the place of the coupon.
        (0, _) => row.with_kind(4).with_days(360).with_coupon(36_000),
        (1, _) => row.with_kind(2 + random.below(2) as u8),
        (3, _) => row.with_days(random.pick(&[31, 90, 1_081, 36_000])),
        _ => row,
    }
}

/// An accepted book of so many rows, each of at most `most`, which is 1 to 1,000,000,000.
pub fn book(random: &mut Random, rows: usize, most: u32) -> Book {
    let sort = sort(random);
    let groups: Vec<u8> = match random.below(3) {
        0 => vec![random.below(32) as u8],
        1 => (0..2).map(|_| random.below(32) as u8).collect(),
        _ => (0..32).collect(),
    };
    let mut book = Book::default();
    for _ in 0..rows {
        let class = match sort {
            Sort::Dearest | Sort::Sides => 0,
            Sort::Class(class) => class,
            Sort::Any => random.pick(&[0, 0, 1, 2, 3]),
        };
        let row = match sort == Sort::Any && random.once_in(3) {
            true => less_dear(random, class),
            false => dearest(random, class),
        };
        let row = row
            .with_group(random.pick(&groups))
            .with_issue(random.draw() as u16);
        let amount = match sort == Sort::Dearest || random.once_in(2) {
            true => most,
            false => most - random.below(most.min(3).into()) as u32,
        };
        let long = match sort {
            // A group has one side.
            Sort::Dearest | Sort::Class(_) => row.group % 2 == 0,
            _ => random.once_in(2),
        };
        let row = row.with_sides(amount, 0);
        book.classes[class].push(if long { row } else { row.mirrored() });
    }
    book
}

#[cfg(test)]
mod tests {
    use super::*;

    /// Catches a book of other rows or a larger amount, and ones that are all of one class or side.
    #[test]
    fn books_have_so_many_rows_of_at_most_so_much() {
        let (mut classes, mut sides, mut at_most) = ([0; 4], [0; 2], 0);
        for case in 0..400 {
            let mut random = Random::of_case(1, case);
            let (rows, most) = (
                random.below(9) as usize,
                random.pick(&[1, 2, 3, 1_000_000_000]),
            );
            let book = book(&mut random, rows, most);
            assert_eq!(book.rows(), rows);
            for (class, own) in book.classes.iter().enumerate() {
                classes[class] += own.len();
                for row in own {
                    let amount = row.long.max(row.short);
                    assert!((1..=most).contains(&amount) && row.long.min(row.short) == 0);
                    sides[usize::from(row.short > 0)] += 1;
                    at_most += usize::from(amount == most);
                }
            }
        }
        let all: usize = classes.iter().sum();
        assert!(classes.iter().all(|rows| 20 * rows > all), "{classes:?}");
        assert!(sides.iter().all(|rows| 4 * rows > all), "{sides:?}");
        assert!(2 * at_most > all && at_most < all, "{at_most} of {all}");
    }
}
