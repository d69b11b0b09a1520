//! The shortest file that is refused with the same number as a book.

use crate::{raw, Refusal};

/// What there is to show of a book's refusal.
#[derive(Clone, Copy, Debug, PartialEq, Eq)]
pub enum Shortest {
    /// The book is accepted. Nothing is written.
    Accepted,
    /// The book is refused. A file of this length is written that is refused with the same number;
    /// of a book that is refused with 1 it has no bytes.
    Refused {
        /// The length of the file.
        length: usize,
    },
}

/// Writes the shortest file that is refused with the same number as a refused book to the front of
/// `out`: for 4 to 9 and 15 the refused row alone, in a book of one row; for 2 and 3 the eight bytes
/// of contents, and for 3 with the first count made 1 where all four are zero; for 1 nothing. No
/// shorter file is refused with that number. The call refuses with 12 alone, where `out` is shorter
/// than what is to be written; 24 bytes are always enough. Bytes past what is written keep their
/// values; a refused call writes nothing.
///
/// ```
/// use market_risk::{check, shortest, Shortest};
/// // An equity book: an ordinary share long 100, and one with 9 days, which shares have not.
/// let mut book = vec![0, 0, 2, 0, 0, 0, 0, 0];
/// book.extend([3, 1, 0, 0, 0, 0, 0, 0, 100, 0, 0, 0, 0, 0, 0, 0]);
/// book.extend([3, 1, 9, 0, 0, 0, 0, 0, 0, 0, 0, 0, 40, 0, 0, 0]);
/// let refusal = check(&book).unwrap_err();
/// assert_eq!((refusal.number, refusal.row), (6, 1));
/// let mut out = [7; 26];
/// assert_eq!(shortest(&book, &mut out), Ok(Shortest::Refused { length: 24 }));
/// assert_eq!(out[..8], [0, 0, 1, 0, 0, 0, 0, 0]);
/// assert_eq!(out[8..24], book[24..]);
/// assert_eq!(out[24..], [7, 7]);
/// let refusal = check(&out[..24]).unwrap_err();
/// assert_eq!((refusal.number, refusal.row), (6, 0));
/// assert_eq!(shortest(&book, &mut out[..23]).unwrap_err().number, 12);
/// // No bytes at all are refused with 1, and a book without rows is accepted.
/// assert_eq!(shortest(&[], &mut []), Ok(Shortest::Refused { length: 0 }));
/// assert_eq!(shortest(&[0; 8], &mut []), Ok(Shortest::Accepted));
/// ```
pub fn shortest(book: &[u8], out: &mut [u8]) -> Result<Shortest, Refusal> {
    let mut result = [0; 5];
    raw::shortest(book, out, &mut result);
    Refusal::of(&result)?;
    Ok(match result[4] {
        0 => Shortest::Refused {
            length: result[3] as usize,
        },
        _ => Shortest::Accepted,
    })
}

/// The shortest file that is refused with the same number as a book, in a buffer of its own, or
/// nothing where the book is accepted.
///
/// ```
/// // Counts of 4,001 rows are refused with 2, whatever follows them.
/// let mut book = vec![0xa1, 0x0f, 0, 0, 0, 0, 0, 0];
/// book.extend([0; 100]);
/// assert_eq!(market_risk::shortest_file(&book), Some(book[..8].to_vec()));
/// assert_eq!(market_risk::shortest_file(&[1, 2, 3]), Some(vec![]));
/// assert_eq!(market_risk::shortest_file(&[0; 8]), None);
/// ```
pub fn shortest_file(book: &[u8]) -> Option<Vec<u8>> {
    let mut out = [0; 24];
    match shortest(book, &mut out).expect("24 bytes are always enough") {
        Shortest::Accepted => None,
        Shortest::Refused { length } => Some(out[..length].to_vec()),
    }
}
