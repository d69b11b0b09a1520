//! Books of 4,000 rows, in runs of equal rows that store small.

use super::build::{all_calls, book, call, only, row, Call, Case};
use books::Row;

/// So many rows of a class: runs of a hundred, each of another group, band and side.
pub fn runs(class: usize, count: usize) -> Vec<Row> {
    let run = |at: usize| {
        let number = at / 100;
        let group = (number * 7 % 32) as u8;
        let dated = class == 0 || class == 3;
        let days = if dated {
            (number * 977 % 9001) as u16
        } else {
            0
        };
        let coupon = if class == 0 {
            290 + (number % 20) as u16
        } else {
            0
        };
        let kind = if class < 2 { 1 + (number % 3) as u8 } else { 0 };
        let net = 1_000_003 * (1 + number as i64 % 11);
        row(
            group,
            kind,
            days,
            coupon,
            if number.is_multiple_of(2) { net } else { -net },
        )
    };
    (0..count).map(run).collect()
}

/// Full books of one class, of all four, and the dearest one.
fn accepted() -> Vec<Vec<u8>> {
    let quarter = [0, 1, 2, 3].map(|class| runs(class, 1000));
    let most = 1_000_000_000;
    let sides = |class: usize, kind: u8| {
        let rows = [
            row(31, kind, 36_000, 0, most),
            row(31, kind, 36_000, 0, -most),
        ];
        only(class, &[vec![rows[0]; 2000], vec![rows[1]; 2000]].concat())
    };
    vec![
        only(0, &runs(0, 4000)),
        only(3, &runs(3, 4000)),
        book(quarter.each_ref().map(|body| &body[..])),
        only(0, &vec![row(31, 3, 36_000, 0, most); 4000]),
        only(0, &vec![row(31, 3, 36_000, 0, -most); 4000]),
        sides(0, 3),
        sides(3, 0),
    ]
}

/// Full books with a bad last row, without their last row, and with one row too many.
fn refused() -> Vec<Vec<u8>> {
    let mut last = runs(1, 4000);
    last[3999].kind = 4;
    let mut short = only(2, &runs(2, 4000));
    short.truncate(short.len() - 16);
    vec![only(1, &last), short, only(2, &runs(2, 4001))]
}

/// 4,000 rows of all classes, of each another number.
fn mixed() -> [Vec<Row>; 4] {
    [(0, 1700), (1, 900), (2, 600), (3, 800)].map(|(class, count)| runs(class, count))
}

/// The bytes of four bodies.
fn bytes(bodies: &[Vec<Row>; 4]) -> Vec<u8> {
    book(bodies.each_ref().map(|body| &body[..]))
}

/// The book of all classes.
pub fn mixed_book() -> Vec<u8> {
    bytes(&mixed())
}

/// The mixed book refused at its last row, with each of 4 to 9, and at its first.
fn spoiled() -> Vec<Vec<u8>> {
    let last = mixed()[3][799];
    let bad = [
        last.with_group(32),
        last.with_kind(1),
        last.with_days(36_001),
        last.with_coupon(1),
        last.with_sides(0, 0),
        last.with_sides(0, 1_000_000_001),
    ];
    let with = |class: usize, at: usize, row: Row| {
        let mut bodies = mixed();
        bodies[class][at] = row;
        bytes(&bodies)
    };
    let at_last = bad.map(|row| with(3, 799, row));
    let at_first = with(0, 0, mixed()[0][0].with_group(32));
    [&at_last[..], &[at_first]].concat()
}

/// All of them.
pub fn cases() -> Vec<Case> {
    let mut cases = Vec::new();
    for book in accepted().iter().chain(&[mixed_book()]) {
        cases.extend(all_calls(book, &[31]));
    }
    for book in refused().iter().chain(&spoiled()) {
        cases.push(call(Call::Check, book));
        cases.push(call(Call::Charge, book));
    }
    cases
}

#[cfg(test)]
mod tests {
    use super::super::answers::lines;
    use super::*;

    /// Catches a stored figure that is kept when a late row is bad, and books that are not
    /// refused where they should be.
    #[test]
    fn a_bad_row_leaves_no_figure_and_no_row_taken() {
        let mut places: Vec<(u64, u64)> = (4..=9).map(|number| (number, 3999)).collect();
        places.push((4, 0));
        let books = spoiled();
        assert_eq!(books.len(), places.len());
        for (book, (number, row)) in books.iter().zip(places) {
            assert_eq!(book.len(), 64_008);
            let line = lines(&[call(Call::Charge, book)]);
            let zeros = " 0".repeat(73);
            assert_eq!(line, format!("charge {number} {row}{zeros}\n"));
        }
    }

    /// Catches a mixed book that is not accepted, or a figure of it that is nothing.
    #[test]
    fn every_figure_of_the_mixed_book_is_stored() {
        let line = lines(&[call(Call::Charge, &mixed_book())]);
        let figures: Vec<&str> = line.split_whitespace().collect();
        assert_eq!(figures[..4], ["charge", "0", "0", "0"]);
        assert_eq!(figures.len(), 76);
        assert!(!figures[4..12].contains(&"0"), "{line}");
        assert_eq!(figures[11], "4000");
        let stored = cases();
        let charged = |book: &[u8]| stored.contains(&call(Call::Charge, book));
        assert!(charged(&mixed_book()));
        assert!(spoiled().iter().all(|book| charged(book)));
    }
}
