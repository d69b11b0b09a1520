//! The fast calls give what the second calculation gives, entry by entry and byte by byte.

mod common;

use books::damage::damage;
use books::generate::{book, interest_book, Shape};
use books::{Book, Random, Row};
use common::{compare, compare_join};

/// A random book, damaged up to twice.
fn random_book(random: &mut Random, rows: usize) -> Vec<u8> {
    let shape = Shape::new(random, rows);
    let mut bytes = book(random, &shape).encode().unwrap();
    (0..random.below(3)).for_each(|_| damage(random, &mut bytes));
    bytes
}

#[test]
fn random_and_damaged_books() {
    let mut seen = [0; 16];
    for case in 0..6_000 {
        let mut random = Random::of_case(11, case);
        let rows = match case % 500 {
            0 => 4_000,
            _ => random.below(40) as usize,
        };
        let bytes = random_book(&mut random, rows);
        compare(&bytes, random.below(34) as usize);
        seen[second::check(&bytes).number as usize] += 1;
    }
    let (book, note) = (&seen[..10], seen[15]);
    assert!(book.iter().all(|count| *count > 0) && note > 0, "{seen:?}");
}

/// Catches a list of the currencies that is right where there is one alone.
#[test]
fn books_of_several_currencies() {
    for case in 0..3_000 {
        let mut random = Random::of_case(13, case);
        let rows = random.below(60) as usize;
        let shape = Shape::of_currencies(&mut random, rows);
        let bytes = interest_book(&mut random, &shape).encode().unwrap();
        compare(&bytes, shape.groups[0].into());
    }
}

#[test]
fn random_and_damaged_joins() {
    let mut seen = [0; 16];
    for case in 0..6_000 {
        let mut random = Random::of_case(12, case);
        let most = if case % 100 == 0 { 3_000 } else { 12 };
        let (rows_a, rows_b) = (random.below(most), random.below(most));
        let a = random_book(&mut random, rows_a as usize);
        let b = random_book(&mut random, rows_b as usize);
        let whole = (a.len() + b.len()).max(8) - 8;
        let room = (whole + random.below(4) as usize).saturating_sub(1);
        seen[compare_join(&a, &b, room) as usize] += 1;
    }
    let (none, ladder) = (seen[0], seen[10]);
    assert!(none > 0 && ladder == 0, "{seen:?}");
    let others = seen[1..10].iter().chain(&seen[11..13]).chain(&seen[15..]);
    assert!(others.clone().all(|count| *count > 0), "{seen:?}");
}

/// Any accepted row of a class.
fn plain(class: usize) -> Row {
    Row {
        group: 3,
        kind: u8::from(class < 2),
        long: 7,
        ..Row::default()
    }
}

/// Nine rows of one class, one of them changed: in a block of four, and past the blocks.
fn changed(class: usize, place: usize, row: Row) -> Vec<u8> {
    let mut book = Book::default();
    book.classes[class] = vec![plain(class); 9];
    book.classes[class][place] = row;
    book.encode().unwrap()
}

/// A book of so many rows of each class, with one that is bad where it is asked for.
fn mixed(counts: [usize; 4], bad: Option<usize>) -> Vec<u8> {
    let mut book = Book::default();
    for (class, count) in counts.iter().enumerate() {
        book.classes[class] = vec![plain(class); *count];
    }
    let mut rows = book.classes.iter_mut().flatten();
    if let Some(row) = bad.and_then(|at| rows.nth(at)) {
        row.group = 32;
    }
    book.encode().unwrap()
}

/// In blocks of four and past them, in every class: all rows are taken, and none where one
/// of them is bad.
#[test]
fn rows_taken_in_every_mix_of_counts() {
    let few = [0, 1, 4, 6];
    for mix in 0..256 {
        let counts = [0, 2, 4, 6].map(|place| few[mix >> place & 3]);
        let rows: usize = counts.iter().sum();
        let taken = |bad| second::charge(&mixed(counts, bad), &second::table()).taken;
        compare(&mixed(counts, None), 3);
        assert_eq!(taken(None), rows as u64);
        for bad in 0..rows {
            compare(&mixed(counts, Some(bad)), 3);
            assert_eq!(taken(Some(bad)), 0);
        }
    }
}

#[test]
fn every_value_of_each_field_in_each_class() {
    let amounts = [0, 1, 1_000_000_000, 1_000_000_001, 1 << 31, u32::MAX];
    let numbers = [0, 1, 299, 300, 10_000, 10_001, 36_000, 36_001, u16::MAX];
    for class in 0..4 {
        let base = plain(class);
        let bytes = 0..=u8::MAX;
        let mut rows: Vec<Row> = bytes.clone().map(|group| base.with_group(group)).collect();
        rows.extend(bytes.map(|kind| base.with_kind(kind)));
        rows.extend(numbers.map(|days| base.with_days(days)));
        rows.extend(numbers.map(|coupon| base.with_coupon(coupon)));
        rows.extend(
            amounts
                .iter()
                .flat_map(|long| amounts.map(|short| base.with_sides(*long, short))),
        );
        for row in rows {
            (0..9).for_each(|place| compare(&changed(class, place, row), 3));
        }
    }
}

/// A floating-rate note of interest.
fn note(fixing: u16, maturity: u16) -> Row {
    let row = plain(0).with_kind(4);
    row.with_days(fixing).with_coupon(maturity)
}

/// Catches a weight by the wrong maturity, a limit that is off by a day, and a note that is taken
/// for a bond among bonds, or a bond for a note among notes.
#[test]
fn floating_rate_notes_at_every_limit() {
    let edges = [
        0, 1, 30, 31, 90, 91, 180, 181, 299, 300, 359, 360, 361, 719, 720, 721, 10_000, 10_001,
        32_767, 32_768, 35_999, 36_000, 36_001, 65_535,
    ];
    for (fixing, maturity) in edges.iter().flat_map(|one| edges.map(|two| (*one, two))) {
        let note = note(fixing, maturity);
        for place in [0, 3, 6, 8] {
            compare(&changed(0, place, note), 3);
            compare(&changed(0, place, note.with_group(32)), 3);
            compare(&changed(0, place, note.with_sides(1, 1)), 3);
        }
    }
    for (place, kind) in (0..9).flat_map(|place| (0..8).map(move |kind| (place, kind))) {
        let mut book = Book::default();
        book.classes[0] = vec![note(90, 36_000); 9];
        book.classes[0][place].kind = kind;
        compare(&book.encode().unwrap(), 3);
        book.classes[0][place].days = 361;
        compare(&book.encode().unwrap(), 3);
    }
}

/// Catches kind 4 of another class that is let in.
#[test]
fn notes_of_other_classes() {
    for class in 0..4 {
        for (days, coupon) in [(0, 0), (90, 2_880), (361, 361), (90, 36_001), (90, 89)] {
            let row = plain(class).with_kind(4);
            let row = row.with_days(days).with_coupon(coupon);
            (0..9).for_each(|place| compare(&changed(class, place, row), 3));
        }
    }
}

#[test]
fn every_day_of_the_bands() {
    for days in (0..=7_210).chain([35_999, 36_000, 36_001, u16::MAX]) {
        for (class, kind, coupon) in [(0, 2, 299), (0, 2, 300), (3, 0, 0)] {
            let row = plain(class).with_kind(kind).with_coupon(coupon);
            compare(&changed(class, 5, row.with_days(days)), 3);
        }
    }
    for days in 0..=361 {
        compare(&changed(0, 5, note(days, days)), 3);
        compare(&changed(0, 5, note(days, 36_000)), 3);
    }
    for days in (0..=7_210).chain([35_999, 36_000, 36_001, u16::MAX]) {
        compare(&changed(0, 5, note(60, days)), 3);
    }
}
