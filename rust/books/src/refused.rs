//! Random files that are refused, in each way: for their contents, or for rows of each class.

use crate::generate::{book, row, Shape};
use crate::names::{kinds, FLOATING};
use crate::{Book, Random, Row, CLASSES};

/// Days to fixing and to final maturity of broken notes, each in one way.
const NOTES: [[u16; 2]; 6] = [
    [361, 361],
    [65_535, 36_000],
    [0, 36_001],
    [360, 65_535],
    [1, 0],
    [360, 359],
];

/// A kind that a class does not know.
fn unknown(random: &mut Random, class: usize) -> u8 {
    let known = |kind: u8| kinds(class).iter().any(|(number, _)| *number == kind);
    let near = [0, 1, 4, 5, 255].map(|kind| if known(kind) { 9 } else { kind });
    random.pick(&near)
}

/// A row of a class made bad in one way: its group, its kind, its days, its coupon, its amounts, the
/// limit of one, or as a floating-rate note. A later fault may stand beside one that is told.
fn bad(random: &mut Random, class: usize, row: Row) -> Row {
    let bond = match (class, row.kind) {
        (0, FLOATING) => row.with_kind(2).with_coupon(500),
        _ => row,
    };
    let days = [[36_001, 65_535], [1, 360]][usize::from(class == 1 || class == 2)];
    let coupon = [[10_001, 65_535], [1, 10_000]][usize::from(class > 0)];
    let (large, side) = (random.pick(&[1_000_000_001, u32::MAX]), random.once_in(2));
    match random.below(8) {
        0 => row.with_group(random.pick(&[32, 33, 128, 255])),
        1 => row.with_kind(unknown(random, class)),
        2 | 3 => bond.with_days(random.pick(&days)),
        4 => bond.with_coupon(random.pick(&coupon)),
        5 => row.with_sides(u32::from(side), u32::from(side)),
        6 if side => row.with_sides(large, 0),
        _ if class > 0 => row.with_sides(0, large),
        6 => row.with_sides(0, large),
        _ => {
            let [fixing, maturity] = random.pick(&NOTES);
            let note = row.with_kind(FLOATING).with_days(fixing);
            note.with_coupon(maturity)
        }
    }
}

/// A book of so many rows or some more in which one row is bad, or up to three.
fn bad_book(random: &mut Random, rows: usize) -> Book {
    let shape = Shape::new(random, rows);
    let mut book = book(random, &shape);
    for _ in 0..random.pick(&[1, 1, 1, 2, 3]) {
        // A bad row of a late class is told only where no earlier one is bad.
        let class = random.pick(&[0, 1, 2, 3, 3]);
        let good = row(random, class, &shape);
        let rows = &mut book.classes[class];
        let place = random.below(rows.len() as u64 + 1) as usize;
        rows.insert(place, bad(random, class, good));
    }
    book
}

/// Contents with these counts, and some bytes behind them.
fn with_bytes(random: &mut Random, counts: [u16; CLASSES], more: usize) -> Vec<u8> {
    let byte = random.pick(&[0, 1, 255]);
    [counts.map(u16::to_le_bytes).concat(), vec![byte; more]].concat()
}

/// A file that is refused: with fewer than eight bytes, with too many rows counted, with a length
/// that is not that of the counts, none of which may be above zero; mostly a book with a bad row.
pub fn file(random: &mut Random, rows: usize) -> Vec<u8> {
    let class = random.below(CLASSES as u64) as usize;
    let mut counts = [0; CLASSES];
    let more = random.pick(&[0, 0, 1, 15, 16, 17, 40]);
    match random.below(12) {
        0 => (0..random.below(8)).map(|_| random.draw() as u8).collect(),
        1 => {
            counts[class] = random.pick(&[4_001, 4_002, 32_768, 65_535]);
            with_bytes(random, counts, more)
        }
        2 => {
            counts = [0; CLASSES].map(|_| 1_000 + random.below(20) as u16);
            counts[class] += 1;
            with_bytes(random, counts, more)
        }
        3 => with_bytes(random, counts, more.max(1)),
        4 => {
            counts[class] = random.pick(&[2, 3, 256, 4_000]);
            with_bytes(random, counts, more)
        }
        _ => {
            let book = bad_book(random, rows);
            book.encode().expect("few rows")
        }
    }
}

#[cfg(test)]
mod tests {
    use super::*;

    /// Catches a sort of file that never comes up, and a class without bad rows.
    #[test]
    fn every_sort_comes_up() {
        let mut lengths = [0; 3];
        let mut groups = [0; CLASSES];
        for case in 0..2_000 {
            let bytes = file(&mut Random::of_case(1, case), 4);
            let book = Book::decode(&bytes);
            let sort = usize::from(bytes.len() >= 8) + usize::from(book.is_some());
            lengths[sort] += 1;
            for (class, rows) in book.unwrap_or_default().classes.iter().enumerate() {
                groups[class] += usize::from(rows.iter().any(|row| row.group > 31));
            }
        }
        assert!(lengths.iter().all(|count| *count > 100), "{lengths:?}");
        assert!(groups.iter().all(|count| *count > 20), "{groups:?}");
    }

    /// A kind of another class is bad, and a known one is not taken for it.
    #[test]
    fn unknown_kinds_are_of_no_class_or_another() {
        for class in 0..CLASSES {
            let mut random = Random::of_case(2, class as u64);
            for _ in 0..100 {
                let kind = unknown(&mut random, class);
                assert!(kinds(class).iter().all(|(known, _)| *known != kind));
            }
        }
    }
}
