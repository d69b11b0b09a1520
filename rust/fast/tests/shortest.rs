//! The fast call for the shortest file gives what the second calculation gives, on files that are
//! refused in each way and on accepted and damaged books, into outputs of each length.

mod common;

use books::damage::damage;
use books::generate::{book, Shape};
use books::{refused, Book, Random, Row};
use common::compare_shortest;

/// A file that is refused, or a book as it is or damaged.
fn random_file(random: &mut Random, rows: usize) -> Vec<u8> {
    if random.once_in(2) {
        return refused::file(random, rows);
    }
    let shape = Shape::new(random, rows);
    let mut bytes = book(random, &shape).encode().unwrap();
    (0..random.below(3)).for_each(|_| damage(random, &mut bytes));
    bytes
}

#[test]
fn random_and_damaged_files() {
    let (mut seen, mut told) = ([0; 16], [0; 13]);
    for case in 0..10_000 {
        let mut random = Random::of_case(19, case);
        let rows = match case % 500 {
            0 => random.pick(&[255, 256, 1_200, 3_990]),
            _ => random.below(14) as usize,
        };
        let bytes = random_file(&mut random, rows);
        let room = match random.once_in(3) {
            true => random.below(40) as usize,
            false => random.pick(&[0, 7, 8, 23, 24, 25]),
        };
        seen[second::check(&bytes).number as usize] += 1;
        told[compare_shortest(&bytes, room) as usize] += 1;
    }
    let numbers = (0..=9).chain([15]);
    assert!(
        numbers.into_iter().all(|number| seen[number] > 0),
        "{seen:?}"
    );
    assert!(told[0] > 0 && told[12] > 0, "{told:?}");
    assert_eq!(told[0] + told[12], 10_000, "{told:?}");
}

/// The first and the last row of each class, in books with rows of some classes alone.
#[test]
fn every_class_and_place() {
    for some in 1..16usize {
        let sizes = [0, 1, 2, 3].map(|class| (some >> class & 1) * (1 + class));
        for class in (0..4).filter(|class| sizes[*class] > 0) {
            for place in [0, sizes[class] - 1] {
                let mut book = Book::default();
                for (class, rows) in book.classes.iter_mut().enumerate() {
                    let row = Row::default().with_kind([1, 1, 0, 0][class]);
                    *rows = vec![row.with_sides(7, 0); sizes[class]];
                }
                book.classes[class][place].group = 32;
                let bytes = book.encode().unwrap();
                assert_eq!(
                    [23, 24, 25].map(|room| compare_shortest(&bytes, room)),
                    [12, 0, 0]
                );
            }
        }
    }
}
