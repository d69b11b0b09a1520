//! The books that document 01 works by hand, in groups other than 0.

use super::build::{all_calls, call, join, only, row, Call, Case};
use books::Row;

/// A government row of currency 7 at coupon 800.
fn bond(days: u16, net: i64) -> Row {
    row(7, 1, days, 800, net)
}

/// Its equity book, and E1 to E6.
pub fn examples() -> Vec<Vec<u8>> {
    let exchange = [(1, 50), (2, 100), (3, 150), (4, -20), (5, -180), (0, -35)];
    let commodity = [(150, 800), (150, -1000), (600, 600), (1100, -600)];
    vec![
        only(1, &[row(3, 1, 0, 0, 100), row(3, 3, 0, 0, -40)]),
        vec![0; 8],
        only(
            0,
            &[
                row(7, 2, 2880, 800, 13_330),
                bond(60, 75_000),
                bond(270, 150_000),
                bond(2880, -150_000),
                bond(180, -50_000),
                bond(1260, 50_000),
            ],
        ),
        only(0, &[bond(270, 75), bond(900, -30), bond(6000, 10)]),
        only(0, &[bond(270, 75), bond(1080, -30), bond(2880, 14)]),
        only(3, &commodity.map(|(days, net)| row(7, 0, days, 0, net))),
        only(2, &exchange.map(|(group, net)| row(group, 0, 0, 0, net))),
    ]
}

/// The books of E4: two, and their join.
fn e4_books() -> [Vec<u8>; 3] {
    let a = [bond(270, 75), bond(900, -30)];
    let b = [bond(900, 30), bond(6000, -10)];
    [only(0, &a), only(0, &b), only(0, &[a, b].concat())]
}

/// E4: two books and their join.
fn e4() -> Vec<Case> {
    let [a, b, joined] = e4_books();
    let mut cases = vec![join(&a, &b, joined.len())];
    for book in [a, b, joined] {
        cases.extend(all_calls(&book, &[7]));
    }
    cases
}

/// The books with interest rows: E2, E3, a book like it, and E4's three.
pub fn interest_books() -> Vec<Vec<u8>> {
    let [_, _, e2, e3, like_e3, ..] = &examples()[..] else {
        unreachable!("seven examples");
    };
    let e2_and_e3 = [e2, e3, like_e3].map(Vec::clone);
    e2_and_e3.into_iter().chain(e4_books()).collect()
}

/// E9 and E10: the largest amount, and too many rows in eight bytes.
fn limits() -> Vec<Case> {
    let most = 1_000_000_000;
    let mut books: Vec<Vec<u8>> = Vec::new();
    for class in [0, 1, 2, 3] {
        let kind = u8::from(class < 2);
        for amount in [most, -most, most + 1, -most - 1] {
            books.push(only(class, &[row(9, kind, 0, 0, amount)]));
        }
    }
    let counts = [1000u16, 1000, 1000, 1001].map(u16::to_le_bytes);
    books.push(counts.concat());
    let charge = |book: &Vec<u8>| call(Call::Charge, book);
    books.iter().map(charge).collect()
}

/// All of them.
pub fn cases() -> Vec<Case> {
    let mut cases: Vec<Case> = Vec::new();
    for book in examples() {
        cases.extend(all_calls(&book, &[7, 0]));
    }
    cases.extend(e4());
    cases.extend(limits());
    cases
}
