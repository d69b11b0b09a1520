//! The fast netting gives what the second calculation gives, on books whose rows share issues, are
//! unlike the first of their issue, net to too much, or are damaged.

mod common;

use books::damage::damage;
use books::generate::Shape;
use books::issues::{spoil, Issues};
use books::{Book, Random, Row};
use common::compare_net;

/// A random book: every fourth with a row that is unlike its issue, every sixth damaged.
fn random_book(random: &mut Random, rows: usize) -> Vec<u8> {
    let shape = Shape::new(random, 0);
    let mut book = Issues::new(random, &shape).book(random, rows);
    if random.once_in(4) {
        spoil(random, &mut book);
        assert!(second::check(&book.encode().unwrap()).accepted());
    }
    let mut bytes = book.encode().unwrap();
    if random.once_in(6) {
        damage(random, &mut bytes);
    }
    bytes
}

#[test]
fn random_and_damaged_books() {
    let mut seen = [0; 16];
    for case in 0..10_000 {
        let mut random = Random::of_case(16, case);
        let rows = match case % 500 {
            0 => 4_000,
            1..=10 => random.pick(&[63, 64, 65, 66, 511, 512, 513, 514]),
            _ => random.below(16) as usize,
        };
        let bytes = random_book(&mut random, rows);
        let whole = second::netted(&bytes).map_or(bytes.len(), |netted| netted.len());
        let room = (whole + random.below(4) as usize).saturating_sub(1);
        seen[compare_net(&bytes, room) as usize] += 1;
    }
    assert!(seen[10] + seen[11] == 0, "{seen:?}");
    let others = seen[..10].iter().chain(&seen[12..]);
    assert!(others.clone().all(|count| *count > 0), "{seen:?}");
}

/// A book of interest rows with these issue numbers, long 1 each.
fn numbered(issues: impl Iterator<Item = u16>) -> Vec<u8> {
    let row = Row::default().with_group(7).with_kind(1).with_sides(1, 0);
    let mut book = Book::default();
    book.classes[0] = issues.map(|issue| row.with_issue(issue)).collect();
    book.encode().unwrap()
}

/// Catches a number that is not found at an end of a block, or is found past the last one seen:
/// every number of issues around the blocks, each seen twice, in two orders.
#[test]
fn every_place_of_a_number() {
    for count in (1..=70).chain([511, 512, 513, 2_000]) {
        let forth = numbered((1..=count).chain(1..=count));
        let back = numbered((1..=count).chain((1..=count).rev()));
        for bytes in [forth, back] {
            assert_eq!(compare_net(&bytes, bytes.len()), 0);
            let length = 8 + 16 * usize::from(count);
            assert_eq!(second::netted(&bytes).unwrap().len(), length);
            assert_eq!(compare_net(&bytes, length - 1), 12);
        }
    }
}

/// Catches comparisons that are counted by blocks: as many as there are numbers before, and up to
/// the number itself.
#[test]
fn comparisons_are_of_single_numbers() {
    let made = |bytes: &[u8]| {
        let mut result = [0; 5];
        fast::net(bytes, &mut vec![0; bytes.len()], &mut result);
        assert_eq!(result[0], 0);
        result[4]
    };
    for count in [1, 2, 15, 16, 17, 32, 33, 64, 65, 4_000] {
        let before = u64::from(count) * u64::from(count - 1) / 2;
        assert_eq!(made(&numbered(1..=count)), before);
        let places = [1, count.min(16), count.min(17), count];
        for place in places.into_iter().filter(|_| count < 4_000) {
            let bytes = numbered((1..=count).chain([place]));
            assert_eq!(
                made(&bytes),
                before + u64::from(place),
                "{place} of {count}"
            );
        }
    }
}

/// Catches numbers of one class that are still known in the next.
#[test]
fn a_class_knows_its_own_numbers_alone() {
    let row = |class: usize, issue: u16| {
        let row = Row::default().with_kind(u8::from(class < 2));
        row.with_issue(issue).with_sides(2, 0)
    };
    for counts in [[40, 1, 20, 3], [1, 40, 3, 20], [17, 16, 15, 33]] {
        let body = |class: usize| (1..=counts[class]).map(|issue| row(class, issue)).collect();
        let book = Book {
            classes: [0, 1, 2, 3].map(body),
        };
        let bytes = book.encode().unwrap();
        assert_eq!(second::netted(&bytes), Ok(bytes.clone()));
        assert_eq!(compare_net(&bytes, bytes.len() + 5), 0);
    }
}

/// The largest sums, which come back or do not, and as many issues as rows.
#[test]
fn full_books() {
    let most = Row::default().with_issue(9).with_sides(1_000_000_000, 0);
    for (shorts, number) in [(0, 14), (1_999, 14), (2_000, 0), (2_001, 14), (4_000, 14)] {
        let mut book = Book::default();
        book.classes[2] = [vec![most; 4_000 - shorts], vec![most.mirrored(); shorts]].concat();
        assert_eq!(compare_net(&book.encode().unwrap(), 64_008), number);
    }
    assert_eq!(compare_net(&numbered(1..=4_000), 64_008), 0);
    assert_eq!(compare_net(&numbered(61_536..=65_535), 64_007), 12);
}
