//! Whole ladders: zones with every mix of sides and sizes, and all bands at once.

use super::bands::{ends, COLUMNS};
use super::build::{all_calls, call, only, row, Call, Case};
use books::Row;

/// One row in each zone, with every mix of sides and every order of sizes. The weighted
/// positions are 5,250 once, twice and three times.
fn zones() -> Vec<Case> {
    let orders = [
        [1, 2, 3],
        [1, 3, 2],
        [2, 1, 3],
        [2, 3, 1],
        [3, 1, 2],
        [3, 2, 1],
        [1, 1, 1],
    ];
    let places = [(270, 75), (900, 30), (6000, 10)];
    let mut cases = Vec::new();
    for sizes in orders {
        for sides in 0..8 {
            let rows = [0, 1, 2].map(|zone: usize| {
                let (days, amount) = places[zone];
                let side = if sides >> zone & 1 == 0 { 1 } else { -1 };
                row(21, 1, days, 800, side * sizes[zone] * amount)
            });
            cases.push(call(Call::InterestLadder(21), &only(0, &rows)));
        }
    }
    cases
}

/// All bands of both columns in one currency, with sides that alternate.
fn whole_ladders() -> Vec<Vec<u8>> {
    let mut books = Vec::new();
    for turn in 0..6i64 {
        let mut rows: Vec<Row> = Vec::new();
        for (column, coupons) in COLUMNS {
            for (at, day) in ends(column).iter().enumerate() {
                let net = (at as i64 * 37 + 101 * turn) % 211 - 105 + turn;
                let kind = 1 + (at % 3) as u8;
                rows.push(row(
                    12,
                    kind,
                    *day,
                    coupons[at % 2],
                    if net == 0 { 1 } else { net },
                ));
            }
        }
        books.push(only(0, &rows));
    }
    books
}

/// All bands of one commodity, with sides and sizes that change.
fn commodities() -> Vec<Vec<u8>> {
    let days = [0, 60, 150, 300, 600, 900, 2000];
    let make = |turn: i64| {
        let rows = days.iter().zip(0..).map(|(days, band): (&u16, i64)| {
            let net = (turn * 53 + band * 97) % 41 - 20;
            row(12, 0, *days, 0, if net == 0 { 1 } else { net })
        });
        only(3, &rows.collect::<Vec<Row>>())
    };
    (0..12).map(make).collect()
}

/// All of them.
pub fn cases() -> Vec<Case> {
    let mut cases = zones();
    for book in whole_ladders() {
        cases.extend(all_calls(&book, &[12]));
    }
    for book in commodities() {
        cases.push(call(Call::CommodityLadder(12), &book));
        cases.push(call(Call::Charge, &book));
    }
    cases
}
