//! The legs offset once more, to hold the library's book to.

use crate::written::unlike;
use books::legs::LEG;
use books::{Book, Row};

/// How many days apart two legs may be, of which this is the nearer.
fn days_apart(nearer: u16) -> u16 {
    if nearer < 30 {
        0
    } else if nearer <= 360 {
        7
    } else {
        30
    }
}

/// Whether two interest rows are legs that offset each other.
pub fn fit(one: &Row, other: &Row) -> bool {
    let legs = one.kind == LEG && other.kind == LEG && one.group == other.group;
    let opposite = one.long == other.short && one.short == other.long;
    let days = one.days.abs_diff(other.days);
    legs && opposite
        && one.coupon.abs_diff(other.coupon) <= 15
        && days <= days_apart(one.days.min(other.days))
}

/// The interest rows that stay, and how many pairs do not: each row that is still there is struck
/// out with the first later one that fits it.
pub fn offset(rows: &[Row]) -> (Vec<Row>, usize) {
    let mut left: Vec<Option<Row>> = rows.iter().copied().map(Some).collect();
    let mut pairs = 0;
    for at in 0..left.len() {
        let Some(row) = left[at] else { continue };
        let fits = |later: &usize| left[*later].is_some_and(|other| fit(&row, &other));
        if let Some(later) = (at + 1..left.len()).find(fits) {
            (left[at], left[later]) = (None, None);
            pairs += 1;
        }
    }
    (left.into_iter().flatten().collect(), pairs)
}

/// Some pairs, in words.
fn counted(pairs: usize) -> String {
    match pairs {
        1 => "1 pair offsets".into(),
        _ => format!("{pairs} pairs offset"),
    }
}

/// How many pairs offset, where the library's book is the one without them; or why it is not.
pub fn pairs(book: &[u8], library: &[u8]) -> Result<usize, String> {
    let Some((whole, own)) = Book::decode(book).zip(Book::decode(library)) else {
        return Err("the library's offset book is no book".into());
    };
    let (left, pairs) = offset(&whole.classes[0]);
    let [_, equity, exchange, commodity] = &whole.classes;
    let expected = [&left, equity, exchange, commodity];
    let mut classes = (0..expected.len()).zip(expected);
    match classes
        .find_map(|(class, rows)| unlike(["offset", "book"], class, &own.classes[class], rows))
    {
        Some(told) => Err(format!("{told}; {} by the book", counted(pairs))),
        None => Ok(pairs),
    }
}

#[cfg(test)]
mod tests {
    use super::*;

    /// A leg of coupon 800 by days and net.
    fn leg(days: u16, net: i64) -> Row {
        let [long, short] = [net.max(0), (-net).max(0)].map(|side| side as u32);
        let row = Row::default().with_kind(LEG).with_days(days);
        row.with_coupon(800).with_sides(long, short)
    }

    /// The bytes of a book of interest and equity rows.
    fn book(interest: &[Row], equity: &[Row]) -> Vec<u8> {
        let mut book = Book::default();
        (book.classes[0], book.classes[1]) = (interest.to_vec(), equity.to_vec());
        book.encode().unwrap()
    }

    /// Catches a limit that is one off, by hand.
    #[test]
    fn legs_fit_up_to_their_limits() {
        let days = |one: u16, other: u16| fit(&leg(one, 5), &leg(other, -5));
        for [near, fits, not] in [
            [0, 0, 1],
            [29, 29, 30],
            [30, 37, 38],
            [360, 367, 368],
            [361, 391, 392],
        ] {
            assert!(days(near, fits) && days(fits, near), "{near}");
            assert!(!days(near, not) && !days(not, near), "{near}");
        }
        let (one, other) = (leg(900, 5), leg(900, -5));
        assert!(fit(&one, &other.with_coupon(815)) && fit(&one, &other.with_coupon(785)));
        assert!(!fit(&one, &other.with_coupon(816)) && !fit(&one, &other.with_coupon(784)));
        assert!(!fit(&one, &one) && !fit(&one, &leg(900, -6)));
        assert!(!fit(&one, &other.with_group(1)) && !fit(&one.with_kind(2), &other.with_kind(2)));
        assert!(fit(&one.with_issue(3), &other.with_issue(4)));
    }

    /// Catches another order than the request's.
    #[test]
    fn chains_by_hand() {
        let left = |legs: &[(u16, i64)]| {
            let rows: Vec<Row> = legs.iter().map(|(days, net)| leg(*days, *net)).collect();
            let (left, pairs) = offset(&rows);
            assert_eq!(left.len() + 2 * pairs, rows.len());
            left.iter().map(|row| row.days).collect::<Vec<_>>()
        };
        assert_eq!(left(&[(900, 5), (910, -5), (905, -5)]), [905]);
        assert_eq!(left(&[(900, 5), (905, 5), (910, -5)]), [905]);
        assert_eq!(left(&[(900, 5), (930, -5), (960, 5)]), [960]);
        assert_eq!(left(&[(360, 5), (367, -5), (370, 5)]), [370]);
    }

    #[test]
    fn the_written_book_is_not_doubted() {
        let rows = [leg(60, 5), leg(900, 5), leg(905, -5)];
        let whole = book(&rows, &rows);
        assert_eq!(pairs(&whole, &book(&rows[..1], &rows)), Ok(1));
        assert_eq!(pairs(&[0; 8], &[0; 8]), Ok(0));
    }

    /// Catches a wrong row, a pair that stays, a row that does not, another class that is changed,
    /// and what is no book.
    #[test]
    fn a_wrong_book_is_told_with_the_pairs() {
        let rows = [leg(60, 5), leg(900, 5), leg(905, -5)];
        let share = [leg(0, 5).with_coupon(0)];
        let whole = book(&rows, &share);
        let told =
            |interest: &[Row], equity: &[Row]| pairs(&whole, &book(interest, equity)).unwrap_err();
        let all = "interest has 1 rows offset, the library's book 3; 1 pair offsets by the book";
        assert_eq!(told(&rows, &share), all);
        let none = "interest has 1 rows offset, the library's book 0; 1 pair offsets by the book";
        assert_eq!(told(&[], &share), none);
        let other = told(&rows[1..2], &share);
        let row =
            "offset, interest row 0 is by the library interest row: group 0, kind government, \
                   days 900, ";
        assert!(other.starts_with(row), "{other}");
        assert!(other.ends_with("; 1 pair offsets by the book"), "{other}");
        assert!(told(&rows[..1], &[]).starts_with("equity has 1 rows offset, "));
        let same = book(&rows[..2], &[]);
        let told = pairs(&same, &book(&[], &[])).unwrap_err();
        assert!(told.ends_with("; 0 pairs offset by the book"), "{told}");
        let no_book = pairs(&whole, &[0; 9]).unwrap_err();
        assert_eq!(no_book, "the library's offset book is no book");
    }
}
