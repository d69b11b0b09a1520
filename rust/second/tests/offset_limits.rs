//! Which two swap legs fit: each limit at it and one past it, and what must agree.

mod common;
use common::*;
use second::offset_book;

/// A leg of currency 7 with a coupon.
fn leg(days: u16, coupon: u16, net: i64) -> Bytes {
    row(7, 1, days, coupon, net)
}

/// A row with an issue number.
fn of(issue: u16, mut row: Bytes) -> Bytes {
    row[6..8].copy_from_slice(&issue.to_le_bytes());
    row
}

/// Whether two rows offset each other, whichever comes first and whichever is long.
fn fit(one: Bytes, other: Bytes) -> bool {
    let turned = |mut row: Bytes| {
        row[8..].rotate_left(4);
        row
    };
    let (back, forth) = (turned(one), turned(other));
    let fits = [[one, other], [other, one], [back, forth], [forth, back]].map(|rows| {
        let (book, left) = (interest(&rows), offset_book(&interest(&rows)).unwrap());
        assert!(left == book || left == [0; 8]);
        left == [0; 8]
    });
    assert_eq!(fits, [fits[0]; 4]);
    fits[0]
}

/// Catches a limit of days that is one off, or that goes by the farther leg.
#[test]
fn days_are_as_far_apart_as_the_nearer_allows() {
    let apart = |near: u16, far: u16| fit(leg(near, 800, 5), leg(far, 800, -5));
    for near in [0, 1, 22, 28, 29] {
        assert!(apart(near, near), "{near}");
        assert!(!apart(near, near + 1) && !apart(near, near + 7), "{near}");
    }
    for near in [30, 31, 100, 352, 353, 354, 359, 360] {
        assert!(apart(near, near) && apart(near, near + 6) && apart(near, near + 7));
        assert!(!apart(near, near + 8) && !apart(near, near + 30), "{near}");
    }
    for near in [361, 362, 1_080, 35_969] {
        assert!(apart(near, near) && apart(near, near + 8) && apart(near, near + 30));
        assert!(!apart(near, near + 31), "{near}");
    }
    assert!(apart(36_000, 36_000) && apart(35_970, 36_000));
}

#[test]
fn coupons_are_at_most_15_apart() {
    let apart = |low: u16, high: u16| fit(leg(900, low, 5), leg(900, high, -5));
    for low in [0, 1, 290, 299, 800, 9_984] {
        assert!(apart(low, low) && apart(low, low + 1) && apart(low, low + 15));
        assert!(!apart(low, low + 16), "{low}");
    }
    assert!(apart(9_985, 10_000));
    // Both at their limits.
    assert!(fit(leg(361, 800, 5), leg(391, 815, -5)));
    assert!(!fit(leg(361, 800, 5), leg(391, 816, -5)));
    assert!(!fit(leg(361, 800, 5), leg(392, 815, -5)));
}

/// Catches a field that is not compared, and one that is and should not be.
#[test]
fn currency_side_amount_and_kind_must_agree_and_issues_need_not() {
    let (one, other) = (leg(900, 800, 5), leg(900, 800, -5));
    assert!(fit(one, other));
    assert!(!fit(one, one) && !fit(other, other));
    assert!(!fit(one, leg(900, 800, -6)) && !fit(one, leg(900, 800, -4)));
    assert!(!fit(one, leg(900, 800, -5 - 256)));
    assert!(!fit(one, row(8, 1, 900, 800, -5)) && !fit(one, row(0, 1, 900, 800, -5)));
    for kind in [2, 3] {
        let [of_one, of_other] = [5, -5].map(|net| row(7, kind, 900, 800, net));
        assert!(!fit(of_one, of_other) && !fit(one, of_other) && !fit(of_one, other));
    }
    let [note, against] = [5, -5].map(|net| row(7, 4, 90, 800, net));
    assert!(!fit(note, against) && !fit(leg(90, 800, 5), against));
    for issues in [[0, 9], [9, 0], [9, 9], [8, 9], [1, 257]] {
        assert!(fit(of(issues[0], one), of(issues[1], other)));
    }
    let most = 1_000_000_000;
    assert!(fit(leg(900, 800, most), leg(900, 800, -most)));
}
