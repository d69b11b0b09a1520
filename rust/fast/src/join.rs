//! Two books into one: both are checked, then their bodies are copied.

use crate::book::{Bad, Book, MOST_ROWS};

/// A book that is accepted.
#[inline(always)]
fn accepted(bytes: &[u8]) -> Result<Book<'_>, Bad> {
    let book = Book::open(bytes)?;
    book.check()?;
    Ok(book)
}

/// Number, row, book; the length of the joined book at the front of `out`.
pub fn join(a: &[u8], b: &[u8], out: &mut [u8], result: &mut [u64; 4]) {
    let refuse = |bad: Bad, book| [bad.number, bad.row as u64, book, 0];
    *result = match accepted(a) {
        Err(bad) => refuse(bad, 0),
        Ok(a) => match accepted(b) {
            Err(bad) => refuse(bad, 1),
            Ok(b) => write(&a, &b, out),
        },
    }
}

/// Writes the joined book where it may be as long and has room.
fn write(a: &Book, b: &Book, out: &mut [u8]) -> [u64; 4] {
    let rows = a.rows + b.rows;
    if rows > MOST_ROWS {
        return [11, 0, 0, 0];
    }
    let length = 8 + 16 * rows;
    let Some(out) = out.get_mut(..length) else {
        return [12, 0, 0, 0];
    };
    let (head, mut rest) = out.split_at_mut(8);
    for class in 0..4 {
        let count = (a.counts[class] + b.counts[class]) as u16;
        head[2 * class..2 * class + 2].copy_from_slice(&count.to_le_bytes());
        for body in [a.bodies[class], b.bodies[class]] {
            let (place, after) = rest.split_at_mut(body.len());
            place.copy_from_slice(body);
            rest = after;
        }
    }
    [0, 0, 0, length as u64]
}
