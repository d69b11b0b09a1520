//! The fast netting and offsetting in one call gives what the second calculation gives, on books of
//! legs that share issues, of all sizes of its arrays, spoiled and damaged.

mod common;

use books::damage::damage;
use books::generate::Shape;
use books::issues::{many, spoil, Issues};
use books::legs::{Legs, LEG};
use books::{split, Book, Random, Row};
use common::compare_both;

/// A random book of so many rows, or some more: legs that share issues, issues or legs alone, and
/// very many issues; one in eight has a row that is unlike its issue, one in eight is damaged.
fn random_book(random: &mut Random, rows: usize) -> Vec<u8> {
    let shape = Shape::new(random, 0);
    let mut book = match random.below(8) {
        0 => Issues::new(random, &shape).book(random, rows),
        1 => Legs::new(random).book(random, rows),
        2 => many(random, &shape, rows),
        _ => split::book(random, rows),
    };
    if random.once_in(8) {
        spoil(random, &mut book);
    }
    let mut bytes = book.encode().unwrap();
    if random.once_in(8) {
        damage(random, &mut bytes);
    }
    bytes
}

/// Outputs around what is written, and around the netted book, which is not.
#[test]
fn random_and_damaged_books() {
    let mut seen = [0; 16];
    for case in 0..10_000 {
        let mut random = Random::of_case(18, case);
        let rows = match case % 500 {
            0 => random.pick(&[1_200, 2_000, 4_000]),
            1..=10 => random.pick(&[60, 63, 64, 65, 505, 512, 513, 600]),
            _ => random.below(16) as usize,
        };
        let bytes = random_book(&mut random, rows);
        let written = match case % 3 {
            0 => second::netted(&bytes),
            _ => second::net_and_offset_book(&bytes),
        };
        let whole = written.map_or(bytes.len(), |left| left.len());
        let room = (whole + random.below(4) as usize).saturating_sub(1);
        seen[compare_both(&bytes, room) as usize] += 1;
    }
    assert!([10, 11].iter().all(|number| seen[*number] == 0));
    let others = (0..=9).chain(12..=15);
    assert!(
        others.into_iter().all(|number| seen[number] > 0),
        "{seen:?}"
    );
}

/// A book of legs of currency 7 at 900 days, by issue and sides.
fn book(legs: impl Iterator<Item = (u16, u32, u32)>) -> Vec<u8> {
    let row = Row::default().with_group(7).with_kind(LEG).with_days(900);
    let mut book = Book::default();
    book.classes[0] = legs
        .map(|(issue, long, short)| row.with_issue(issue).with_sides(long, short))
        .collect();
    book.encode().unwrap()
}

/// Full books: of two issues that are a pair, of as many issues as rows in pairs, and of issues that
/// net to what the rows without one have on the other side.
#[test]
fn full_books() {
    let two =
        book((0..4_000).map(|at| (1 + at % 2, 3 * u32::from(at % 2), 3 * u32::from(1 - at % 2))));
    let all = book((0..4_000).map(|at| (1 + at, u32::from(at % 2), u32::from(1 - at % 2))));
    let thirds = book((0..3_999u16).map(|at| match at % 3 {
        0 => (0, 9, 0),
        side => (1 + at / 3, 0, 3 * u32::from(side)),
    }));
    for bytes in [two, all, thirds] {
        assert_eq!(compare_both(&bytes, 8), 0);
        assert_eq!(second::net_and_offset_book(&bytes), Ok(vec![0; 8]));
        assert_eq!(compare_both(&bytes, 7), 12);
    }
}
