//! The fast call of a small bank gives what the second calculation gives, on books of its two
//! classes, damaged ones, and such with a row of another class.

mod common;

use books::damage::damage;
use books::generate::{row, Shape};
use books::small::{slip_in, small_book};
use books::{Book, Random, Row};
use common::compare_small_bank;

/// A random book of the two classes; one time in four with a row of another, and damaged up to
/// twice.
fn random_book(random: &mut Random, rows: usize) -> Vec<u8> {
    let shape = Shape::new(random, rows);
    let mut book = small_book(random, &shape);
    if random.once_in(4) {
        slip_in(random, &mut book, &shape);
    }
    let mut bytes = book.encode().unwrap();
    (0..random.below(3)).for_each(|_| damage(random, &mut bytes));
    bytes
}

#[test]
fn random_and_damaged_books() {
    let mut seen = [0; 21];
    for case in 0..10_000 {
        let mut random = Random::of_case(14, case);
        let rows = match case % 500 {
            0 => 4_000,
            _ => random.below(40) as usize,
        };
        let bytes = random_book(&mut random, rows);
        seen[compare_small_bank(&bytes) as usize] += 1;
    }
    let (others, small) = (&seen[..10], seen[20]);
    assert!(
        others.iter().all(|count| *count > 0) && small > 0,
        "{seen:?}"
    );
    assert!(seen[10..20].iter().all(|count| *count == 0), "{seen:?}");
}

/// In every mix of the four counts, up to two of each: all figures, or 20.
#[test]
fn every_mix_of_counts() {
    let mut random = Random::new(15);
    let shape = Shape::new(&mut random, 0);
    for mix in 0..81 {
        let counts = [mix / 27, mix / 9 % 3, mix / 3 % 3, mix % 3];
        let mut book = Book::default();
        for (class, count) in counts.iter().enumerate() {
            book.classes[class] = (0..*count)
                .map(|_| row(&mut random, class, &shape))
                .collect();
        }
        let number = compare_small_bank(&book.encode().unwrap());
        let expected = if mix < 9 { 0 } else { 20 };
        assert_eq!(number, expected, "{counts:?}");
    }
}

/// The largest sums, on either side and matched.
#[test]
fn the_dearest_books() {
    for class in [2, 3] {
        for shorts in [0, 2_000, 4_000] {
            let mut book = Book::default();
            let row = Row::default().with_group(31);
            let (long, short) = (
                row.with_sides(1_000_000_000, 0),
                row.with_sides(0, 1_000_000_000),
            );
            book.classes[class] = [vec![long; 4_000 - shorts], vec![short; shorts]].concat();
            assert_eq!(compare_small_bank(&book.encode().unwrap()), 0);
        }
    }
}
