//! The part of the file that each class is handed: the bodies in document 01's order, and of
//! refused books nothing.

mod common;
use common::*;
use second::{part, Part, Refusal};

/// A part that is handed.
fn handed(start: u64, length: u64) -> Part {
    Part {
        refusal: Refusal::NONE,
        start,
        length,
    }
}

/// Every part of a book of 1, 2, 0 and 3 rows, and that the numbers beside the classes have none.
#[test]
fn the_bodies_follow_the_contents_in_the_order_of_the_counts() {
    let rows = |class: usize, count: usize| vec![clean(class); count];
    let book = book([&rows(0, 1), &rows(1, 2), &[], &rows(3, 3)]);
    let parts = [0, 1, 2, 3, 4, 5].map(|class| part(&book, class));
    let expected = [(0, 0), (8, 16), (24, 32), (56, 0), (56, 48), (0, 0)];
    assert_eq!(parts, expected.map(|(start, length)| handed(start, length)));
    assert_eq!(part(&book, 257), handed(0, 0));
    assert_eq!(part(&book, usize::MAX), handed(0, 0));
}

/// A book without rows has parts without rows, which start where rows would.
#[test]
fn a_book_without_rows_has_empty_parts() {
    for class in 1..=4 {
        assert_eq!(part(&[0; 8], class), handed(8, 0), "{class}");
    }
}

#[test]
fn of_a_refused_book_nothing_is_handed() {
    let bad = book([&[clean(0)], &[clean(1)], &[], &[row(32, 0, 0, 0, 1)]]);
    for class in 0..6 {
        let told = [
            (&bad[..], 4, 2),
            (&bad[..7], 1, 0),
            (&[255; 8], 2, 0),
            (&bad[..55], 3, 0),
        ];
        for (book, number, row) in told {
            let refusal = Refusal {
                number,
                row,
                book: 0,
            };
            let expected = Part {
                refusal,
                ..Part::default()
            };
            assert_eq!(part(book, class), expected, "{class}");
        }
    }
}
