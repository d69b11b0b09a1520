//! The part of a book that each class is handed, over the linked library.

use market_risk::{part, raw, Refusal};

/// A row of a group, long 5, that its class accepts.
fn row(class: usize, group: u8) -> [u8; 16] {
    let mut row = [0; 16];
    (row[0], row[1], row[8]) = (group, u8::from(class < 3), 5);
    row
}

/// A book of so many rows of each class, each row of another group.
fn book(counts: [u8; 4]) -> Vec<u8> {
    let head = counts.iter().flat_map(|count| [*count, 0]);
    let rows = (1..).zip(counts).flat_map(|(class, count)| {
        let group = 5 * class as u8;
        (group..group + count).flat_map(move |group| row(class, group))
    });
    head.chain(rows).collect()
}

/// The entries of the call.
fn entries(book: &[u8], class: usize) -> [u64; 5] {
    let mut out = [u64::MAX; 5];
    raw::part(book, class, &mut out);
    out
}

/// Catches a part that starts or ends in another class's: all four counts differ.
#[test]
fn each_class_is_handed_its_own_rows() {
    let book = book([1, 2, 0, 3]);
    assert_eq!(entries(&book, 1), [0, 0, 0, 8, 16]);
    assert_eq!(entries(&book, 2), [0, 0, 0, 24, 32]);
    assert_eq!(entries(&book, 3), [0, 0, 0, 56, 0]);
    assert_eq!(entries(&book, 4), [0, 0, 0, 56, 48]);
    assert_eq!(part(&book, 1), Ok(&row(1, 5)[..]));
    assert_eq!(part(&book, 2).unwrap(), [row(2, 10), row(2, 11)].concat());
    assert_eq!(part(&book, 3), Ok(&[][..]));
    assert_eq!(part(&book, 4).unwrap(), &book[56..]);
}

/// Catches a part that is a copy: it must lie in the book that was lent.
#[test]
fn a_part_is_of_the_lent_book() {
    let book = book([3, 1, 1, 1]);
    let own = part(&book, 2).unwrap();
    assert_eq!(own.as_ptr(), book[56..].as_ptr());
}

#[test]
fn no_other_number_is_a_class() {
    let book = book([1, 1, 1, 1]);
    for class in [0, 5, 257, 1 << 32 | 2, usize::MAX] {
        assert_eq!(entries(&book, class), [0; 5], "{class}");
        assert_eq!(part(&book, class), Ok(&[][..]), "{class}");
    }
}

/// Catches a refusal that is not the check's, and one that hands out the rows before the bad one.
#[test]
fn of_a_refused_book_nothing_is_handed() {
    let mut late = book([2, 1, 1, 1]);
    let last = late.len() - 16;
    late[last] = 32;
    let refusal = Refusal {
        number: 4,
        row: 4,
        book: 0,
    };
    for class in 0..6 {
        assert_eq!(entries(&late, class), [4, 4, 0, 0, 0], "{class}");
        assert_eq!(part(&late, class), Err(refusal), "{class}");
        assert_eq!(entries(&late[..7], class), [1, 0, 0, 0, 0], "{class}");
        assert_eq!(entries(&[255; 8], class), [2, 0, 0, 0, 0], "{class}");
        assert_eq!(entries(&late[..last], class), [3, 0, 0, 0, 0], "{class}");
    }
}

/// Catches places that are cut to one byte, and counts that are read by their low byte alone.
#[test]
fn the_last_row_of_a_full_book_is_handed() {
    let mut book = vec![0x9f, 0x0f, 0, 0, 0, 0, 1, 0];
    book.extend(row(1, 7).repeat(3_999));
    book.extend(row(4, 8));
    assert_eq!(entries(&book, 1), [0, 0, 0, 8, 63_984]);
    assert_eq!(entries(&book, 4), [0, 0, 0, 63_992, 16]);
}
