//! Two legs on both sides of every limit of offsetting, and rows that do not fit for another reason.

use super::build::{book, only, row};
use super::nets::MOST;
use super::offsets::leg;
use books::Row;

/// The days of pairs that fit, and of those that are one day too far apart.
const DAYS: [(u16, [u16; 2]); 10] = [
    (0, [0, 1]),
    (28, [28, 29]),
    (29, [29, 30]),
    (30, [37, 38]),
    (353, [360, 361]),
    (354, [361, 362]),
    (359, [366, 367]),
    (360, [367, 368]),
    (361, [391, 392]),
    (35_969, [35_999, 36_000]),
];

/// The same of coupons.
const COUPONS: [(u16, [u16; 2]); 4] = [
    (0, [15, 16]),
    (290, [305, 306]),
    (800, [815, 816]),
    (9_984, [9_999, 10_000]),
];

/// Two rows in both orders, long first and short first.
fn both_ways(one: Row, other: Row) -> [Vec<u8>; 4] {
    let (back, forth) = (one.mirrored(), other.mirrored());
    [[one, forth], [other, back], [back, other], [forth, one]].map(|rows| only(0, &rows))
}

/// Pairs that fit and pairs past a limit, eight books for each limit.
pub fn limits() -> Vec<Vec<u8>> {
    let days = DAYS.iter().flat_map(|(near, far)| {
        let [at, past] = far.map(|far| both_ways(leg(*near, 5), leg(far, 5)));
        [at, past].concat()
    });
    let coupons = COUPONS.iter().flat_map(|(low, high)| {
        let one = leg(900, 5);
        let other = high.map(|high| one.with_coupon(high));
        let [at, past] = other.map(|other| both_ways(one.with_coupon(*low), other));
        [at, past].concat()
    });
    days.chain(coupons).collect()
}

/// Two rows that differ from a pair in what they must have in common, and stay; and issue numbers,
/// which need not be equal.
pub fn others() -> Vec<Vec<u8>> {
    let (one, other) = (leg(900, 5), leg(900, -5));
    let pair = |one: Row, other: Row| only(0, &[one, other]);
    let mut books = vec![
        pair(one, one),
        pair(other, other),
        pair(one, other.with_sides(0, 6)),
        pair(one.with_sides(5 + 65_536, 0), other),
        pair(one.with_group(8), other),
        pair(one, other.with_group(31)),
        pair(one.with_sides(MOST as u32, 0), other),
        pair(
            one.with_sides(MOST as u32, 0),
            other.with_sides(0, MOST as u32),
        ),
        pair(one.with_issue(3), other.with_issue(4)),
        pair(one.with_issue(3), other.with_issue(3)),
    ];
    for kind in [2, 3] {
        let [of_one, of_other] = [one, other].map(|row| row.with_kind(kind));
        books.extend([
            pair(of_one, of_other),
            pair(one, of_other),
            pair(of_one, other),
        ]);
    }
    let [note, against] = [5, -5].map(|net| row(7, 4, 90, 900, net));
    books.extend([
        pair(note, against),
        pair(leg(90, 5).with_coupon(900), against),
    ]);
    let shares = [row(7, 1, 0, 0, 5), row(7, 1, 0, 0, -5)];
    books.push(only(1, &shares));
    books.push(book([&[leg(0, 5).with_coupon(0)], &shares[1..], &[], &[]]));
    // Days and coupons that agree in their low byte alone.
    books.push(pair(one, other.with_coupon(800 + 256)));
    books.push(pair(one, other.with_days(900 + 256)));
    books
}

#[cfg(test)]
mod tests {
    use super::super::offsets::tests::left;
    use super::*;

    /// Catches pairs that are not what they are stored for: four that fit, then four that do not.
    #[test]
    fn pairs_fit_at_a_limit_and_not_past_it() {
        let expected = [0, 0, 0, 0, 2, 2, 2, 2].repeat(DAYS.len() + COUPONS.len());
        assert_eq!(left(&limits()), expected);
        let others = left(&others());
        assert_eq!(others[..10], [2, 2, 2, 2, 2, 2, 2, 0, 0, 0]);
        assert_eq!(others[10..], [2; 12]);
    }
}
