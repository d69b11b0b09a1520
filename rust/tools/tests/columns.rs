//! Every ladder in at most 100 columns, of books with the largest amounts and of random ones.

mod common;

use books::random::Random;
use books::{Book, Row};
use common::{prints, temporary};
use std::fs;

/// The most columns that a ladder may take.
const MOST: usize = 100;

/// The widest line of what is printed of a book's ladders, under the dearest table where there are
/// currencies: each band weighs 20%, and each match bears 100%.
fn widest(book: &Book, name: &str) -> usize {
    let (path, table) = (
        temporary(&format!("columns-{name}.book")),
        temporary(&format!("columns-{name}.table")),
    );
    let weights = 2_000u16.to_le_bytes().repeat(15);
    fs::write(&table, [weights, vec![100; 6]].concat()).unwrap();
    fs::write(&path, book.encode().unwrap()).unwrap();
    let text = prints(&["ladder", &path, "--table", &table]);
    for line in text.lines() {
        assert!(line.chars().count() <= MOST, "{name}: {line}");
    }
    text.lines().map(|line| line.chars().count()).max().unwrap()
}

/// So many rows of a day and a side, each of the largest amount; of kind government in interest.
fn rows(kind: u8, days: u16, count: usize, side: usize) -> Vec<Row> {
    let row = Row::default()
        .with_group(31)
        .with_kind(kind)
        .with_days(days);
    let most = 1_000_000_000;
    let row = match side {
        0 => row.with_sides(most, 0),
        _ => row.with_sides(0, most),
    };
    vec![row; count]
}

/// A day in each zone, or in bands of commodities that follow one another.
const DAYS: [u16; 3] = [200, 700, 2_000];

/// Positions as rows of three days and their sides: how many rows each has.
const POSITIONS: [[[usize; 2]; 3]; 8] = [
    [[4_000, 0], [0, 0], [0, 0]],
    [[0, 4_000], [0, 0], [0, 0]],
    [[2_000, 2_000], [0, 0], [0, 0]],
    [[3_500, 500], [0, 0], [0, 0]],
    [[500, 1_500], [1_000, 0], [0, 1_000]],
    [[1_000, 0], [0, 1_500], [1_500, 0]],
    [[1_333, 0], [1_333, 0], [1_334, 0]],
    [[500, 2_500], [500, 0], [500, 0]],
];

/// Catches a table or a line that is drawn too wide for the largest books that are accepted, and a test
/// that reaches none of them.
#[test]
fn the_largest_amounts_fit() {
    for (class, kind) in [(0, 1), (3, 0)] {
        let mut reached = 0;
        for (at, positions) in POSITIONS.iter().enumerate() {
            let mut book = Book::default();
            for (days, counts) in DAYS.into_iter().zip(positions) {
                for (side, count) in counts.iter().enumerate() {
                    book.classes[class].extend(rows(kind, days, *count, side));
                }
            }
            assert_eq!(book.rows(), 4_000);
            reached = reached.max(widest(&book, &format!("{class}-{at}")));
        }
        assert!(reached >= 95, "class {class}: {reached}");
    }
}

/// A random row: any days, an amount with any number of digits.
fn row(random: &mut Random, class: usize) -> Row {
    let digits = 1 + random.below(9) as u32;
    let amount = 1 + random.below(10u64.pow(digits));
    let row = Row::default()
        .with_group(random.below(2) as u8)
        .with_kind(u8::from(class == 0))
        .with_days(random.below(9_000) as u16);
    match random.below(2) {
        0 => row.with_sides(amount as u32, 0),
        _ => row.with_sides(0, amount as u32),
    }
}

/// Catches a width that depends on other amounts than the largest.
#[test]
fn random_books_fit() {
    let mut random = Random::new(25);
    for case in 0..40 {
        let mut book = Book::default();
        for class in [0, 3] {
            let count = 1 + random.below(2_000) as usize;
            book.classes[class] = (0..count).map(|_| row(&mut random, class)).collect();
        }
        widest(&book, &format!("random-{case}"));
    }
}
