//! Loaded tables: the fast calls give what the second calculation gives, entry by entry.

mod common;

use books::damage::damage;
use books::generate::{book, interest_rows, Shape};
use books::tables::random::{accepted, broken, of_wrong_length, WAYS};
use books::tables::{Table, BANDS};
use books::Random;
use common::compare_under;

/// A random book, now and then damaged.
fn random_book(random: &mut Random, rows: usize) -> Vec<u8> {
    let shape = Shape::new(random, rows);
    let mut bytes = book(random, &shape).encode().unwrap();
    if random.once_in(4) {
        damage(random, &mut bytes);
    }
    bytes
}

#[test]
fn random_books_under_accepted_tables() {
    let mut refused = 0;
    for case in 0..3_000 {
        let mut random = Random::of_case(21, case);
        let table = accepted(&mut random).encode();
        let rows = random.below(40) as usize;
        let any = random_book(&mut random, rows);
        let shape = Shape::of_one_group(&mut random, rows);
        let one_group = interest_rows(&mut random, &shape).encode().unwrap();
        for bytes in [any, one_group] {
            let group = bytes.get(8).copied().unwrap_or(0);
            refused += u64::from(compare_under(&table, &bytes, group.into()) > 0);
        }
    }
    assert!((300..900).contains(&refused), "{refused}");
}

/// Catches a condition that is not tested, or that is tested after the book.
#[test]
fn every_condition_broken_alone() {
    for (way, case) in (0..WAYS).flat_map(|way| (0..200).map(move |case| (way, case))) {
        let mut random = Random::of_case(22, case);
        let table = broken(&mut random, way).encode();
        let rows = random.below(5) as usize;
        let book = random_book(&mut random, rows);
        let group = random.pick(&[0, 31, 32]);
        assert_eq!(compare_under(&table, &book, group), 19, "way {way}");
    }
}

/// Each weight in turn one below the band before, above 2,000 with all after it, and at the
/// limits; each byte of the per cents at every value.
#[test]
fn every_weight_and_every_per_cent() {
    let base = Table {
        weights: [500; BANDS],
        vertical: 20,
        zones: [40, 45, 42],
        adjacent: 50,
        zones_1_3: 60,
    };
    let book = random_book(&mut Random::of_case(23, 1), 9);
    for (band, weight) in (0..BANDS).flat_map(|band| [0, 499, 500, 501, 65_535].map(|w| (band, w)))
    {
        let mut table = base;
        table.weights[band] = weight;
        compare_under(&table.encode(), &book, 3);
        table.weights[band..].fill(weight);
        compare_under(&table.encode(), &book, 3);
        for limit in [1_999, 2_000, 2_001, 32_767, 32_768] {
            table.weights[band..].fill(limit);
            compare_under(&table.encode(), &book, 3);
        }
    }
    for (at, byte) in (30..36).flat_map(|at| (0..=255).map(move |byte| (at, byte))) {
        let mut bytes = base.encode();
        bytes[at] = byte;
        compare_under(&bytes, &book, 3);
    }
}

#[test]
fn every_length_up_to_80() {
    let bytes: Vec<u8> = second::table().iter().cycle().take(80).copied().collect();
    for (length, book) in
        (0..=80).flat_map(|length| [vec![], vec![0; 8]].map(|book| (length, book)))
    {
        for group in [0, 32] {
            let number = compare_under(&bytes[..length], &book, group);
            assert_eq!(number == 18, length != 36);
        }
    }
    for case in 0..300 {
        let table = of_wrong_length(&mut Random::of_case(24, case));
        assert_eq!(compare_under(&table, &[], 7), 18);
    }
}

/// Catches sums that wrap: 4,000 rows of the largest amount at 2,000, alone and matched.
#[test]
fn the_dearest_tables_and_books() {
    let row = books::Row::default().with_group(31).with_kind(3);
    let row = row.with_days(36_000).with_sides(1_000_000_000, 0);
    let short = row.mirrored();
    let near = short.with_days(31);
    let books = [
        vec![row; 4_000],
        [vec![row; 2_000], vec![short; 2_000]].concat(),
    ];
    let zones = [vec![row; 2_000], vec![near; 2_000]].concat();
    for rows in books.into_iter().chain([zones]) {
        let mut book = books::Book::default();
        book.classes[0] = rows;
        for per_cent in [0, 1, 100] {
            let table = Table {
                weights: [2_000; BANDS],
                vertical: per_cent,
                zones: [per_cent; 3],
                adjacent: per_cent,
                zones_1_3: per_cent,
            };
            assert_eq!(
                compare_under(&table.encode(), &book.encode().unwrap(), 31),
                0
            );
        }
    }
}
