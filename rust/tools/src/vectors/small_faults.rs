//! Refusals of small banks: those of the contents, 20 in each way and in its place, and those of
//! the rows.

use super::build::{book, clean, only, row, small_bank, Case};
use super::faults::{bad_rows, contents};
use books::names::FLOATING;
use books::Row;

/// The bytes of four bodies.
fn bytes(bodies: &[Vec<Row>; 4]) -> Vec<u8> {
    book(bodies.each_ref().map(|body| &body[..]))
}

/// Books of foreign exchange and commodities with one bad row: first and last of its
/// class.
fn one_bad_row() -> Vec<Vec<u8>> {
    let mut books = Vec::new();
    for class in [2, 3] {
        for bad in bad_rows(class) {
            for place in [0, 2] {
                let mut bodies = [vec![], vec![], vec![clean(2)], vec![clean(3)]];
                bodies[class] = vec![clean(class); 3];
                bodies[class][place] = bad;
                books.push(bytes(&bodies));
            }
        }
    }
    books
}

/// Rows with several faults, each cured of one more, and two bad rows in either order.
fn several() -> Vec<Vec<u8>> {
    let all = row(32, 9, 36_001, 1, 1).with_sides(2_000_000_000, 1);
    let days = all.with_group(31).with_kind(0);
    let coupon = days.with_days(0);
    let sides = coupon.with_coupon(0);
    let rows = [
        all,
        all.with_group(31),
        days,
        coupon,
        sides,
        sides.with_sides(2_000_000_000, 0),
    ];
    let mut books = Vec::new();
    for (at, bad) in rows.iter().enumerate() {
        let next = rows[(at + 1) % rows.len()];
        books.push(only(2, &[*bad]));
        books.push(only(3, &[clean(3), *bad, next]));
        books.push(book([&[], &[], &[clean(2), *bad], &[next]]));
    }
    books
}

/// 20 for interest, for equity and for both, alone and beside rows of a small bank; and for 4,000
/// rows, or one of them.
fn not_small() -> Vec<Vec<u8>> {
    let mut books = Vec::new();
    for counts in [[1, 0], [0, 1], [1, 1], [2, 0], [0, 2]] {
        for other in [0, 2] {
            let counts = [counts[0], counts[1], other, other];
            books.push(bytes(
                &[0, 1, 2, 3].map(|class| vec![clean(class); counts[class]]),
            ));
        }
    }
    for class in [0, 1] {
        let mut bodies: [Vec<Row>; 4] = Default::default();
        bodies[class] = vec![clean(class)];
        bodies[3] = vec![clean(3); 3_999];
        books.push(bytes(&bodies));
        books.push(only(class, &vec![clean(class); 4_000]));
    }
    // 256 rows: the low byte of their count is zero.
    books.extend([0, 1].map(|class| only(class, &vec![clean(class); 256])));
    books
}

/// 20 before a bad row of each class, and before a floating-rate note that is refused with 15.
fn before_rows() -> Vec<Vec<u8>> {
    let mut books = Vec::new();
    for class in 0..4 {
        for bad in bad_rows(class).into_iter().step_by(3) {
            let mut bodies = [0, 1, 2, 3].map(|class| vec![clean(class)]);
            bodies[class] = vec![bad];
            books.push(bytes(&bodies));
        }
    }
    books.push(only(0, &[row(1, FLOATING, 361, 400, 1)]));
    books.push(only(1, &[clean(1).with_group(32)]));
    books
}

/// All of them.
pub fn cases() -> Vec<Case> {
    let books = [
        contents(),
        one_bad_row(),
        several(),
        not_small(),
        before_rows(),
    ];
    books.concat().iter().map(|book| small_bank(book)).collect()
}

#[cfg(test)]
mod tests {
    use super::super::answers::lines;
    use super::*;

    /// The numbers and rows of some books' refusals.
    fn refusals(books: &[Vec<u8>]) -> Vec<[u64; 2]> {
        let entries = books.iter().map(|book| second::small_bank(book).entries());
        entries.map(|entries| [entries[0], entries[1]]).collect()
    }

    /// Catches books that are refused for another reason than they are stored for.
    #[test]
    fn books_are_refused_for_their_own_reason() {
        let twenty = [20, 0];
        let all = [not_small(), before_rows()].concat();
        assert!(refusals(&all).iter().all(|refusal| *refusal == twenty));
        let bad = before_rows();
        assert!(bad.iter().all(|book| !second::check(book).accepted()));
        let good = not_small();
        assert!(good.iter().all(|book| second::check(book).accepted()));
        let several = refusals(&several());
        let numbers = several.chunks(3).zip(4..);
        for (refusals, number) in numbers {
            // Foreign exchange has no days: past 5 its rows are cured alike.
            assert_eq!(refusals, [[number, 0], [number, 1], [number, 1]]);
        }
    }

    /// Catches figures that are kept, and a refusal of the contents that is not stored before 20.
    #[test]
    fn no_figure_is_stored_of_a_refused_book() {
        let accepted = contents()
            .iter()
            .filter(|book| second::check(book).accepted())
            .count();
        let lines = lines(&cases());
        let zeros = lines
            .lines()
            .filter(|line| line.ends_with(" 0 0 0 0"))
            .count();
        assert_eq!((zeros, accepted), (cases().len(), 0));
        let of_contents = refusals(&contents());
        for number in 1..=3 {
            let counted = |book: &Vec<u8>| book.len() >= 4 && book[..4] != [0; 4];
            let stored = contents().into_iter().zip(&of_contents);
            let mut stored = stored.filter(|(_, refusal)| refusal[0] == number);
            assert!(stored.any(|(book, _)| counted(&book)), "{number}");
        }
    }
}
