//! Books that a call writes: the bytes of some rows, and the front of the caller's output.

use crate::book::{Class, Refusal, CLASSES};

/// The bytes of a book with these rows of 16 bytes, which stand class after class.
pub fn file(rows: &[(Class, Vec<u8>)]) -> Vec<u8> {
    let mut bytes = Vec::new();
    for class in CLASSES {
        let own = rows.iter().filter(|row| row.0 == class);
        let count = u16::try_from(own.count()).expect("at most 4,000 rows");
        bytes.extend(count.to_le_bytes());
    }
    bytes.extend(rows.iter().flat_map(|row| &row.1));
    bytes
}

/// Writes a book to the front of `out` and gives its length, or refuses with 12 where it has no
/// room. The bytes past it keep their values.
pub fn write(book: &[u8], out: &mut [u8]) -> Result<u64, Refusal> {
    let front = out.get_mut(..book.len()).ok_or(Refusal::of(12))?;
    front.copy_from_slice(book);
    Ok(book.len() as u64)
}
