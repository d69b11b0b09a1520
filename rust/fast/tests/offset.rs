//! The fast offsetting gives what the second calculation gives, on books of swap legs that fit or
//! nearly fit, of all sizes of its arrays and blocks, and damaged.

mod common;

use books::damage::damage;
use books::legs::{Legs, LEG};
use books::{Book, Random, Row};
use common::compare_offset;

/// A random book, every sixth damaged.
fn random_book(random: &mut Random, rows: usize) -> Vec<u8> {
    let book = Legs::new(random).book(random, rows);
    let mut bytes = book.encode().unwrap();
    assert!(second::check(&bytes).accepted());
    if random.once_in(6) {
        damage(random, &mut bytes);
    }
    bytes
}

#[test]
fn random_and_damaged_books() {
    let mut seen = [0; 16];
    for case in 0..10_000 {
        let mut random = Random::of_case(17, case);
        let rows = match case % 500 {
            0 => 4_000,
            1..=10 => random.pick(&[63, 64, 65, 66, 511, 512, 513, 600]),
            _ => random.below(24) as usize,
        };
        let bytes = random_book(&mut random, rows);
        let whole = second::offset_book(&bytes).map_or(bytes.len(), |left| left.len());
        let room = (whole + random.below(4) as usize).saturating_sub(1);
        seen[compare_offset(&bytes, room) as usize] += 1;
    }
    assert!([10, 11, 13, 14].iter().all(|number| seen[*number] == 0));
    let others = (0..=9).chain([12, 15]);
    assert!(
        others.into_iter().all(|number| seen[number] > 0),
        "{seen:?}"
    );
}

/// A leg of currency 7 at 900 days.
fn leg(coupon: u16, long: u32, short: u32) -> Row {
    let row = Row::default().with_group(7).with_kind(LEG).with_days(900);
    row.with_coupon(coupon).with_sides(long, short)
}

/// A book of interest rows.
fn book(rows: Vec<Row>) -> Vec<u8> {
    let mut book = Book::default();
    book.classes[0] = rows;
    book.encode().unwrap()
}

/// Catches a leg that is not found at an end of a block, or is found past the last row: the other
/// leg of the first one at every distance, alone and behind those that do not fit.
#[test]
fn every_distance() {
    for distance in (1..=70).chain([511, 512, 513, 3_999]) {
        let (first, last) = (leg(800, 5, 0), leg(800, 0, 5));
        let others = [leg(800, 0, 6), leg(816, 0, 5), leg(800, 5, 0).with_kind(2)];
        for other in others {
            let between = vec![other; distance - 1];
            let bytes = book([vec![first], between, vec![last]].concat());
            assert_eq!(compare_offset(&bytes, bytes.len()), 0);
            let left = 8 + 16 * (distance - 1);
            assert_eq!(second::offset_book(&bytes).unwrap().len(), left);
            assert_eq!(compare_offset(&bytes, left - 1), 12);
        }
    }
}

/// Full books: legs that pair off with the next, with the other half, and with none.
#[test]
fn full_books() {
    let turns = |at: u32| leg(800, 5 * (at % 2), 5 * (1 - at % 2));
    let halves = |at: u32| leg(800, 5 * u32::from(at < 2_000), 5 * u32::from(at >= 2_000));
    let sides = |at: u32| {
        leg(
            (at % 600 * 16) as u16,
            5 * (at / 600 % 2),
            5 * (1 - at / 600 % 2),
        )
    };
    let amounts = |at: u32| leg(800, at + 1, 0);
    let books = [turns, halves, sides, amounts].map(|row| book((0..4_000).map(row).collect()));
    for bytes in books {
        let left = second::offset_book(&bytes).unwrap().len();
        assert_eq!(compare_offset(&bytes, left), 0);
        assert_eq!(compare_offset(&bytes, left - 1), 12);
    }
}
