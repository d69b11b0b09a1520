//! Random books of a small bank: foreign exchange and commodities alone, or nearly so.

use crate::generate::{row, Shape};
use crate::{Book, Random};

/// An accepted book of a shape, of foreign exchange and commodities alone.
pub fn small_book(random: &mut Random, shape: &Shape) -> Book {
    let mut book = Book::default();
    for _ in 0..shape.rows {
        let class = random.pick(&[2, 3]);
        book.classes[class].push(row(random, class, shape));
    }
    book
}

/// Puts a row of interest, of equity, or one of each into a book.
pub fn slip_in(random: &mut Random, book: &mut Book, shape: &Shape) {
    let classes = random.pick(&[&[0][..], &[1], &[0, 1]]);
    for class in classes {
        book.classes[*class].push(row(random, *class, shape));
    }
}

#[cfg(test)]
mod tests {
    use super::*;

    /// Catches books without rows of a class that they should have, or with others.
    #[test]
    fn small_books_are_of_two_classes() {
        let mut slipped = [0; 3];
        for case in 0..60 {
            let mut random = Random::of_case(9, case);
            let shape = Shape::new(&mut random, 40);
            let mut book = small_book(&mut random, &shape);
            let counts = book.classes.each_ref().map(Vec::len);
            assert_eq!((counts[0], counts[1], book.rows()), (0, 0, 40));
            assert!(counts[2] > 5 && counts[3] > 5);
            slip_in(&mut random, &mut book, &shape);
            match book.classes.each_ref().map(Vec::len) {
                [1, 0, ..] => slipped[0] += 1,
                [0, 1, ..] => slipped[1] += 1,
                [1, 1, ..] => slipped[2] += 1,
                counts => panic!("{counts:?}"),
            }
        }
        assert!(slipped.iter().all(|count| *count > 5), "{slipped:?}");
    }
}
