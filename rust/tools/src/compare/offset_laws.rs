//! The claims about offsetting (document 02, P2) on one case, by the library's own books: what is
//! written is accepted, has all rows that are no legs in their order, and no more rows than before;
//! no two of its rows fit, and offset again it is the same.

use super::case::Case;
use crate::calls::Calls;
use crate::offset::fit;
use books::legs::LEG;
use books::{Book, Row, ROW_BYTES};

/// The written book, where there is one, with room for a row more than it can have.
fn written(calls: &dyn Calls, book: &[u8]) -> Option<Vec<u8>> {
    let (mut out, mut result) = (vec![0; book.len() + ROW_BYTES], [0; 4]);
    calls.offset(book, &mut out, &mut result);
    match result[0] {
        0 => Some(out.get(..result[3] as usize)?.to_vec()),
        _ => None,
    }
}

/// The rows of each class that are no legs.
fn no_legs(book: &Book) -> [Vec<Row>; 4] {
    [0, 1, 2, 3].map(|class| {
        let rows = book.classes[class].iter().copied();
        rows.filter(|row| class != 0 || row.kind != LEG).collect()
    })
}

/// The rows of a written book beside those of the book that it was.
fn rows(book: &Book, once: &Book) -> Option<String> {
    let (before, after) = (book.rows(), once.rows());
    if after > before {
        return Some(format!("of {before} rows {after} are written"));
    }
    let same = no_legs(book) == no_legs(once);
    (!same).then(|| "rows that are no legs are not as they were".into())
}

/// Two rows of a written book that fit.
pub fn fitting(once: &Book) -> Option<String> {
    let rows = once.classes[0].iter().enumerate();
    let legs: Vec<(usize, &Row)> = rows.filter(|(_, row)| row.kind == LEG).collect();
    legs.iter().enumerate().find_map(|(at, (first, one))| {
        let mut later = legs[at + 1..].iter();
        let (second, _) = later.find(|(_, other)| fit(one, other))?;
        Some(format!("rows {first} and {second} of the written book fit"))
    })
}

/// What of them a case breaks, in words.
pub fn broken(calls: &dyn Calls, case: &Case) -> Option<String> {
    let once = written(calls, &case.a)?;
    let mut check = [0; 3];
    calls.check(&once, &mut check);
    let told = match check[0] {
        0 => {
            let [before, after] = [&case.a, &once].map(|book| Book::decode(book));
            let (before, after) = (before?, after?);
            let changes = || written(calls, &once).as_ref() != Some(&once);
            rows(&before, &after)
                .or_else(|| fitting(&after))
                .or_else(|| changes().then(|| "offset again, the written book changes".into()))?
        }
        number => format!("the written book is refused with {number}"),
    };
    Some(format!("offsetting: {told}"))
}
