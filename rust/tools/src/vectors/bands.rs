//! Every band of every ladder at both its ends, every kind, and several groups.

use super::build::{all_calls, book, call, only, row, Call, Case};
use books::Row;

/// The days at which a band ends, of a column and its coupons.
pub const COLUMNS: [(&[u16], [u16; 2]); 2] = [
    (
        &[
            30, 90, 180, 360, 720, 1080, 1440, 1800, 2520, 3600, 5400, 7200,
        ],
        [300, 10_000],
    ),
    (
        &[
            30, 90, 180, 360, 684, 1008, 1296, 1548, 2052, 2628, 3348, 3816, 4320, 7200,
        ],
        [299, 0],
    ),
];

/// The first and the last day of each band.
pub fn ends(last_days: &[u16]) -> Vec<u16> {
    let inner = last_days.iter().flat_map(|last| [*last, last + 1]);
    [0].into_iter().chain(inner).chain([36_000]).collect()
}

/// Each interest band by itself, then against its neighbour.
fn interest() -> Vec<Case> {
    let mut cases = Vec::new();
    for (column, coupons) in COLUMNS {
        let days = ends(column);
        for (at, day) in days.iter().enumerate() {
            let coupon = coupons[at % 2];
            let single = only(0, &[row(5, 1, *day, coupon, 3)]);
            cases.push(call(Call::InterestLadder(5), &single));
            let next = days[(at + 1) % days.len()];
            let pair = [
                row(30, 2, *day, coupon, -700),
                row(30, 3, next, coupon, 11_000),
            ];
            cases.push(call(Call::InterestLadder(30), &only(0, &pair)));
            cases.push(call(Call::Charge, &only(0, &pair)));
        }
    }
    cases
}

/// Each commodity band by itself, then with its neighbour.
fn commodity() -> Vec<Case> {
    let days = ends(&[30, 90, 180, 360, 720, 1080]);
    let mut cases = Vec::new();
    for (at, day) in days.iter().enumerate() {
        let next = days[(at + 1) % days.len()];
        let single = only(3, &[row(8, 0, *day, 0, -13)]);
        let pair = only(3, &[row(8, 0, *day, 0, -13), row(8, 0, next, 0, 20)]);
        for book in [single, pair] {
            cases.push(call(Call::CommodityLadder(8), &book));
            cases.push(call(Call::Charge, &book));
        }
    }
    cases
}

/// Every kind of interest and equity, at the ends of the qualifying weights.
fn kinds() -> Vec<Vec<u8>> {
    let mut books = Vec::new();
    for kind in 1..=3 {
        for days in [0, 180, 181, 720, 721, 36_000] {
            books.push(only(0, &[row(3, kind, days, 299, 7)]));
        }
        books.push(only(1, &[row(3, kind, 0, 0, -7)]));
    }
    books
}

/// The same rows in one group, in two and in many.
fn groups() -> Vec<Case> {
    let mut cases = Vec::new();
    for group in [[7, 7], [7, 8], [0, 31], [1, 0]] {
        let dated = [row(group[0], 1, 60, 300, 9), row(group[1], 1, 61, 300, -9)];
        let markets = [row(group[0], 1, 0, 0, 9), row(group[1], 3, 0, 0, -9)];
        let plain = dated.map(|dated| dated.with_kind(0).with_days(0).with_coupon(0));
        let stock = dated.map(|dated| dated.with_kind(0).with_coupon(0));
        let book = book([&dated, &markets, &plain, &stock]);
        cases.extend(all_calls(&book, &group.map(u16::from)));
    }
    let many: Vec<Row> = (0..32)
        .map(|group| row(group, 0, 0, 0, i64::from(group) * 3 - 47))
        .collect();
    cases.extend(all_calls(&only(2, &many), &[]));
    cases.extend(all_calls(&only(3, &many), &[0, 15, 31]));
    cases
}

/// All of them.
pub fn cases() -> Vec<Case> {
    let mut cases = interest();
    cases.extend(commodity());
    for book in kinds() {
        cases.push(call(Call::Charge, &book));
    }
    cases.extend(groups());
    cases
}
