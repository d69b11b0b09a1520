//! Every refusal: of the contents, of rows in every class and place, of ladder groups.

use super::build::{all_calls, book, call, clean, only, row, Call, Case};
use books::Row;

/// Rows that a class refuses, from 4 to 9; 15 has a file of its own.
pub fn bad_rows(class: usize) -> Vec<Row> {
    let good = clean(class);
    let dated = class == 0 || class == 3;
    let days = if dated { 36_001 } else { 1 };
    let coupon = if class == 0 { 10_001 } else { 1 };
    let kinds = [[0, 5], [0, 4], [1, 255], [1, 255]][class];
    vec![
        good.with_group(32),
        good.with_group(255),
        good.with_kind(kinds[0]),
        good.with_kind(kinds[1]),
        good.with_days(days),
        good.with_days(65_535),
        good.with_coupon(coupon),
        good.with_coupon(65_535),
        good.with_sides(0, 0),
        good.with_sides(1, 1),
        good.with_sides(2_000_000_000, 1),
        good.with_sides(1_000_000_001, 0),
        good.with_sides(0, u32::MAX),
    ]
}

/// Books with one bad row: first, in the middle and last, in each class.
fn one_bad_row() -> Vec<Vec<u8>> {
    let mut books = Vec::new();
    for class in 0..4 {
        for bad in bad_rows(class) {
            for place in 0..3 {
                let mut bodies: [Vec<Row>; 4] = [0, 1, 2, 3].map(|class| vec![clean(class)]);
                bodies[class] = vec![clean(class); 3];
                bodies[class][place] = bad;
                books.push(book(bodies.each_ref().map(|body| &body[..])));
            }
        }
    }
    books
}

/// Books with several faults at once.
pub fn several() -> Vec<Vec<u8>> {
    // Each row is cured of one more fault, in the order of trying.
    let all = row(32, 9, 36_001, 10_001, 1).with_sides(2_000_000_000, 1);
    let group = all.with_group(31);
    let kind = group.with_kind(3);
    let days = kind.with_days(36_000);
    let coupon = days.with_coupon(10_000);
    let rows = [
        all,
        group,
        kind,
        days,
        coupon,
        coupon.with_sides(2_000_000_000, 0),
    ];
    let mut books = Vec::new();
    for (at, bad) in rows.iter().enumerate() {
        books.push(only(0, &[*bad]));
        // The first bad row wins, whatever its number.
        let next = rows[(at + 1) % rows.len()];
        books.push(only(0, &[clean(0), *bad, next]));
        books.push(book([&[clean(0)], &[clean(1)], &[], &[*bad, next]]));
    }
    books
}

/// Files whose contents are refused, and those just beside them.
pub fn contents() -> Vec<Vec<u8>> {
    let mut books: Vec<Vec<u8>> = (0..8).map(|length| vec![255; length]).collect();
    let counts = [
        [4001, 0, 0, 0],
        [0, 0, 0, 4001],
        [65_535, 1, 0, 0],
        [65_535, 65_535, 65_535, 65_535],
        [1000, 1000, 1000, 1001],
        [1000, 1000, 1000, 1000],
        [1, 0, 0, 0],
        [0, 1, 0, 0],
        [0, 0, 1, 0],
        [0, 0, 0, 1],
    ];
    books.extend(counts.map(|counts| counts.map(u16::to_le_bytes).concat()));
    let whole = book([&[clean(0)], &[clean(1)], &[clean(2)], &[clean(3)]]);
    for length in [9, 23, 24, 71] {
        books.push(whole[..length].to_vec());
    }
    for more in [1, 15, 16] {
        books.push([&whole[..], &vec![0; more]].concat());
    }
    // Nothing is looked at before the length: these have bad rows as well.
    books.push([&only(0, &[row(99, 0, 0, 0, 1)])[..], &[0]].concat());
    books
}

/// Ladder groups at and past the last, with good and bad books.
fn groups() -> Vec<Case> {
    let good = book([&[row(31, 1, 60, 300, 5)], &[], &[], &[row(31, 0, 60, 0, 5)]]);
    let mut cases = Vec::new();
    for book in [&good[..], &good[..7], &good[..9]] {
        for group in [0, 31, 32, 255, 256, 287, 65_535] {
            cases.push(call(Call::InterestLadder(group), book));
            cases.push(call(Call::CommodityLadder(group), book));
        }
    }
    cases
}

/// All of them. Each bad row is checked and charged, and shown to one ladder call.
pub fn cases() -> Vec<Case> {
    let mut cases = Vec::new();
    for (at, book) in one_bad_row().iter().enumerate() {
        cases.extend(all_calls(book, &[]));
        let ladder = [Call::InterestLadder(1), Call::CommodityLadder(4)];
        cases.push(call(ladder[at % 2].clone(), book));
    }
    for book in several().iter().chain(&contents()) {
        cases.extend(all_calls(book, &[31]));
    }
    cases.extend(groups());
    cases
}
