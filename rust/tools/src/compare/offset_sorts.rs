//! What is told apart of books that are offset: two legs at each limit, two rows that would be legs
//! of a pair but for one thing, and chains of legs.

use crate::offset::fit;
use books::legs::LEG;
use books::{Book, Row};

/// Where two legs that fit lie at a limit.
pub const FITS: [&str; 5] = [
    "on one day under 30",
    "7 days apart",
    "30 days apart",
    "15 basis points apart",
    "of unlike issues",
];

/// What alone keeps two rows from offsetting each other: days and coupons by one.
pub const MISSES: [&str; 9] = [
    "one day under 30",
    "the 8th day",
    "the 31st day",
    "the 16th basis point",
    "their side",
    "their amount",
    "their currency",
    "their kind",
    "their class",
];

/// What the order of legs is good for.
pub const CHAINS: [&str; 4] = [
    "several pairs",
    "a leg that fits two later ones",
    "two legs that want one",
    "others left with rows turned round",
];

/// As many interest rows are looked at, two by two.
const MOST: usize = 60;

/// Whether two rows are on opposite sides, and whether their amounts are equal.
fn sides(one: &Row, other: &Row) -> [bool; 2] {
    let opposite = (one.long > 0) != (other.long > 0);
    [opposite, one.long + one.short == other.long + other.short]
}

/// How far two rows are past the days that the nearer allows, and which limit that is.
fn past_days(one: &Row, other: &Row) -> (u16, usize) {
    let apart = one.days.abs_diff(other.days);
    let (most, limit) = match one.days.min(other.days) {
        ..=29 => (0, 0),
        30..=360 => (7, 1),
        _ => (30, 2),
    };
    (apart.saturating_sub(most), limit)
}

/// At which limits two rows fit, if they do.
fn fits(one: &Row, other: &Row) -> [bool; 5] {
    let (near, apart) = (one.days.min(other.days), one.days.abs_diff(other.days));
    let at = [
        near < 30,
        near <= 360 && apart == 7,
        apart == 30,
        one.coupon.abs_diff(other.coupon) == 15,
        one.issue != other.issue,
    ];
    at.map(|at| at && fit(one, other))
}

/// What alone keeps two interest rows from fitting.
fn misses(one: &Row, other: &Row) -> [bool; 8] {
    let (past, limit) = past_days(one, other);
    let coupons = one.coupon.abs_diff(other.coupon).saturating_sub(15);
    let [side, amount] = sides(one, other).map(|agree| u16::from(!agree));
    let kind = u16::from(one.kind != LEG || other.kind != LEG);
    let mut apart = [0, 0, 0, coupons, side, amount, 0, kind];
    apart[limit] = past;
    apart[6] = u16::from(one.group != other.group);
    let alone = apart.iter().map(|by| u32::from(*by)).sum::<u32>() == 1;
    apart.map(|by| by == 1 && alone)
}

/// Whether two equity rows have all that they would want as legs.
fn in_equity(book: &Book) -> bool {
    let rows = &book.classes[1];
    let like = |one: &Row, other: &Row| fit(&one.with_kind(LEG), &other.with_kind(LEG));
    let mut firsts = rows.iter().take(MOST).enumerate();
    firsts.any(|(at, one)| {
        rows[at + 1..]
            .iter()
            .take(MOST)
            .any(|other| like(one, other))
    })
}

/// Gives what is so of any two of a book's interest rows, by a test of two.
fn of_two<const N: usize>(book: &Book, test: fn(&Row, &Row) -> [bool; N]) -> [bool; N] {
    let rows = &book.classes[0][..book.classes[0].len().min(MOST)];
    let mut seen = [false; N];
    for (at, one) in rows.iter().enumerate() {
        for other in &rows[at + 1..] {
            let two = test(one, other);
            seen = std::array::from_fn(|at| seen[at] || two[at]);
        }
    }
    seen
}

/// The limits at which two rows of a book fit.
pub fn of_fits(book: &Book) -> [bool; 5] {
    of_two(book, fits)
}

/// What alone keeps two rows of a book from fitting.
pub fn of_misses(book: &Book) -> [bool; 9] {
    let mut seen = [false; 9];
    seen[..8].copy_from_slice(&of_two(book, misses));
    seen[8] = in_equity(book);
    seen
}

/// The rows that are left of a book with its interest rows turned round, the last one first.
fn left_turned(book: &Book) -> Option<Book> {
    let mut turned = book.clone();
    turned.classes[0].reverse();
    let left = second::offset_book(&turned.encode()?).ok()?;
    let mut left = Book::decode(&left)?;
    left.classes[0].reverse();
    Some(left)
}

/// Which chains a book has, and what is left of it.
pub fn of_chains(book: &Book, left: &Book) -> [bool; 4] {
    let rows = &book.classes[0][..book.classes[0].len().min(MOST)];
    let fitting = |at: usize, others: &[Row]| {
        let fitting = others.iter().filter(|other| fit(&rows[at], other));
        fitting.count()
    };
    [
        left.rows() + 4 <= book.rows(),
        (0..rows.len()).any(|at| fitting(at, &rows[at + 1..]) > 1),
        (0..rows.len()).any(|at| fitting(at, &rows[..at]) > 1),
        left_turned(book).is_some_and(|turned| turned != *left),
    ]
}

#[cfg(test)]
mod tests {
    use super::*;

    /// A leg by days and net.
    fn leg(days: u16, net: i64) -> Row {
        let [long, short] = [net.max(0), (-net).max(0)].map(|side| side as u32);
        let row = Row::default().with_kind(LEG).with_days(days);
        row.with_coupon(800).with_sides(long, short)
    }

    /// A book of interest rows.
    fn book(rows: &[Row]) -> Book {
        let mut book = Book::default();
        book.classes[0] = rows.to_vec();
        book
    }

    /// The names of what is seen.
    fn named<const N: usize>(names: [&'static str; N], seen: [bool; N]) -> Vec<&'static str> {
        let seen = names.into_iter().zip(seen);
        seen.filter(|(_, seen)| *seen)
            .map(|(name, _)| name)
            .collect()
    }

    /// Catches a limit that is counted for another, or where the two do not fit.
    #[test]
    fn pairs_count_at_their_limit() {
        let fits = |one: Row, other: Row| named(FITS, of_fits(&book(&[one, other])));
        let one = leg(900, 5);
        assert_eq!(fits(one, leg(900, -5)), [""; 0]);
        assert_eq!(fits(leg(29, 5), leg(29, -5)), [FITS[0]]);
        assert_eq!(fits(leg(29, 5), leg(30, -5)), [""; 0]);
        assert_eq!(fits(leg(360, 5), leg(367, -5)), [FITS[1]]);
        assert_eq!(fits(leg(368, 5), leg(361, -5)), [""; 0]);
        assert_eq!(fits(one, leg(930, -5)), [FITS[2]]);
        assert_eq!(fits(one, leg(900, -5).with_coupon(785)), [FITS[3]]);
        assert_eq!(fits(one, leg(900, -5).with_issue(1)), [FITS[4]]);
        assert_eq!(fits(one, leg(931, -5).with_issue(1)), [""; 0]);
    }

    /// Catches a miss that is counted for another, beside another, or by more than one.
    #[test]
    fn rows_count_by_what_alone_they_miss() {
        let misses = |one: Row, other: Row| named(MISSES, of_misses(&book(&[one, other])));
        let (one, other) = (leg(900, 5), leg(900, -5));
        assert_eq!(misses(one, other), [""; 0]);
        assert_eq!(misses(leg(29, 5), leg(30, -5)), [MISSES[0]]);
        assert_eq!(misses(leg(29, 5), leg(31, -5)), [""; 0]);
        assert_eq!(misses(leg(368, 5), leg(360, -5)), [MISSES[1]]);
        assert_eq!(misses(leg(361, 5), leg(392, -5)), [MISSES[2]]);
        assert_eq!(misses(one, other.with_coupon(816)), [MISSES[3]]);
        assert_eq!(misses(one, other.with_coupon(817)), [""; 0]);
        assert_eq!(misses(one, one), [MISSES[4]]);
        assert_eq!(misses(one, leg(900, -9)), [MISSES[5]]);
        assert_eq!(misses(one, leg(900, 9)), [""; 0]);
        assert_eq!(misses(one, other.with_group(1)), [MISSES[6]]);
        assert_eq!(misses(one, other.with_kind(2)), [MISSES[7]]);
        assert_eq!(misses(one.with_kind(3), other.with_kind(3)), [MISSES[7]]);
        let mut shares = book(&[]);
        shares.classes[1] = vec![one, other];
        assert_eq!(named(MISSES, of_misses(&shares)), [MISSES[8]]);
        shares.classes[1] = vec![one, one];
        assert_eq!(named(MISSES, of_misses(&shares)), [""; 0]);
    }

    /// Catches a chain that is counted for another.
    #[test]
    fn books_count_by_their_chains() {
        let chains = |legs: &[(u16, i64)]| {
            let rows: Vec<Row> = legs.iter().map(|(days, net)| leg(*days, *net)).collect();
            let whole = book(&rows);
            let left = second::offset_book(&whole.encode().unwrap()).unwrap();
            named(CHAINS, of_chains(&whole, &Book::decode(&left).unwrap()))
        };
        assert_eq!(chains(&[(900, 5), (900, -5)]), [""; 0]);
        assert_eq!(
            chains(&[(60, 5), (60, -5), (900, 5), (900, -5)]),
            [CHAINS[0]]
        );
        assert_eq!(chains(&[(900, 5), (900, -5), (900, -5)]), [CHAINS[1]]);
        assert_eq!(
            chains(&[(900, 5), (900, -5), (910, -5)]),
            [CHAINS[1], CHAINS[3]]
        );
        assert_eq!(chains(&[(900, 5), (900, 5), (900, -5)]), [CHAINS[2]]);
        assert_eq!(
            chains(&[(900, 5), (910, 5), (900, -5)]),
            [CHAINS[2], CHAINS[3]]
        );
    }
}
