//! The claim about the parts of a book (document 01, The book file) on one case, by the library's
//! own figures.

use super::case::Case;
use super::check::NUMBERS;
use crate::calls::Calls;

/// The refusal's number, and where the part starts and ends.
fn part(calls: &dyn Calls, book: &[u8], class: usize) -> (u64, [u64; 2]) {
    let mut out = [0; 5];
    calls.part(book, class, &mut out);
    (out[0], [out[3], out[3] + out[4]])
}

/// Of an accepted book the parts follow the contents one after the other, to the end of the file;
/// of a refused one, and of a number that is no class, nothing is handed.
pub fn broken(calls: &dyn Calls, case: &Case) -> Option<String> {
    let book = &case.a;
    let mut end = 8;
    for class in NUMBERS {
        let (number, place) = part(calls, book, class);
        if number != 0 || !(1..=4).contains(&class) {
            if place != [0, 0] {
                return Some(format!("part {class}: bytes {place:?} of nothing"));
            }
            continue;
        }
        if place[0] != end {
            return Some(format!("part {class}: bytes {place:?} after byte {end}"));
        }
        end = place[1];
        if class == 4 && end != book.len() as u64 {
            return Some(format!("part {class}: bytes {place:?} of {}", book.len()));
        }
    }
    None
}
