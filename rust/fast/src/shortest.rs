//! The shortest file that shows a refusal: the book is checked in one pass, and what is written, at
//! most 24 bytes, is copied from where the check has stopped.

use crate::book::{Bad, Book};

/// The first fault of a book.
#[inline(always)]
fn fault(bytes: &[u8]) -> Result<(), Bad> {
    Book::open(bytes)?.check()
}

/// The class of a row, by the counts of a book that has it.
fn class_of(head: &[u8], row: usize) -> usize {
    let mut end = 0;
    let ends = head.chunks_exact(2).map(|count| {
        end += usize::from(u16::from_le_bytes([count[0], count[1]]));
        end
    });
    // The last class is not asked for: the row is one of the book.
    ends.take(3).filter(|end| *end <= row).count()
}

/// Writes the file for a fault and gives its length, or nothing where it has no room.
fn write(bytes: &[u8], bad: &Bad, out: &mut [u8]) -> Option<usize> {
    let length = match bad.number {
        1 => 0,
        2 | 3 => 8,
        _ => 24,
    };
    let out = out.get_mut(..length)?;
    match out.split_at_mut_checked(8) {
        None => (),
        Some((head, [])) => {
            head.copy_from_slice(&bytes[..8]);
            // Counts of zero are refused for the length alone.
            head[0] |= u8::from(bytes[..8] == [0; 8]);
        }
        Some((head, row)) => {
            head.fill(0);
            head[2 * class_of(&bytes[..8], bad.row)] = 1;
            row.copy_from_slice(&bytes[8 + 16 * bad.row..][..16]);
        }
    }
    Some(length)
}

/// Number, row, book; the length of the file at the front of `out`; 1 where the book is accepted.
pub fn shortest(bytes: &[u8], out: &mut [u8], result: &mut [u64; 5]) {
    *result = match fault(bytes) {
        Ok(()) => [0, 0, 0, 0, 1],
        Err(bad) => match write(bytes, &bad, out) {
            Some(length) => [0, 0, 0, length as u64, 0],
            None => [12, 0, 0, 0, 0],
        },
    }
}
