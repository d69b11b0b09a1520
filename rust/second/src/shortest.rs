//! The shortest file that shows a refusal (document 02, P12): of a refused book it is refused with
//! the same number, and of the book's rows it has at most the bad one.

use crate::book::{check, counts, Class, Refusal, CLASSES};
use crate::written::{file, write};

/// What the call gives: its own refusal, the length of the file that is written, and whether the
/// book is accepted, so that there is nothing to show.
#[derive(Clone, Copy, Debug, Default, PartialEq, Eq)]
pub struct Shortest {
    pub refusal: Refusal,
    pub length: u64,
    pub accepted: bool,
}

/// The class of a row, which is counted through the whole file.
fn class_of(book: &[u8], row: usize) -> Class {
    let classes = CLASSES.iter().zip(counts(book));
    let mut by_row = classes.flat_map(|(class, count)| (0..count).map(|_| *class));
    by_row.nth(row).expect("a row of the book")
}

/// The contents of a book whose length they do not give. Where they count no rows, one is counted:
/// eight bytes would else be right for them.
fn contents_alone(book: &[u8]) -> Vec<u8> {
    match counts(book) {
        [0, 0, 0, 0] => vec![1, 0, 0, 0, 0, 0, 0, 0],
        _ => book[..8].to_vec(),
    }
}

/// A book of the bad row alone.
fn row_alone(book: &[u8], row: usize) -> Vec<u8> {
    let bytes = book[8 + 16 * row..][..16].to_vec();
    file(&[(class_of(book, row), bytes)])
}

/// The shortest file that is refused with the same number as a book, or none where it is accepted.
pub fn shortest_file(book: &[u8]) -> Option<Vec<u8>> {
    let refusal = check(book);
    match refusal.number {
        0 => None,
        1 => Some(vec![]),
        2 => Some(book[..8].to_vec()),
        3 => Some(contents_alone(book)),
        _ => Some(row_alone(book, refusal.row as usize)),
    }
}

/// Writes that file to the front of `out`; the bytes past it keep their values. For nothing there is
/// always room.
pub fn shortest(book: &[u8], out: &mut [u8]) -> Shortest {
    let shown = shortest_file(book);
    let accepted = shown.is_none();
    match write(&shown.unwrap_or_default(), out) {
        Err(refusal) => Shortest {
            refusal,
            ..Shortest::default()
        },
        Ok(length) => Shortest {
            refusal: Refusal::NONE,
            length,
            accepted,
        },
    }
}
