//! The command over a library that refuses a least trade wrongly, or takes one, which it must notice.

mod common;
mod stand_in_library;

use common::{book, temporary};
use stand_in_library::told_of_trade;
use std::fs;

/// A bond of currency 7.
const BOND: &str = "interest,7,government,900,800,0,100,0";

/// Wrong refusals, a book or none for the first, what is asked, and what is told on both sides.
const REFUSALS: [(&str, bool, &str, [&str; 2]); 7] = [
    (
        "band_14_refused",
        true,
        "7 14 short 1000",
        [TWENTYONE, "accepted"],
    ),
    (
        "band_15_taken",
        true,
        "7 15 short 1000",
        ["accepted", TWENTYONE],
    ),
    (
        "ten_for_twentyone",
        true,
        "7 15 short 1000",
        [TEN, TWENTYONE],
    ),
    (
        "twentyone_first",
        true,
        "32 15 short 1000",
        [TWENTYONE, TEN],
    ),
    (
        "twentyone_last",
        false,
        "7 15 short 1000",
        ["refused 4 row 1: group over 31", TWENTYONE],
    ),
    (
        "book_taken",
        false,
        "7 5 short 1000",
        ["accepted", "refused 4 row 1: group over 31"],
    ),
    (
        "next_row_told",
        false,
        "7 5 short 1000",
        [
            "refused 4 row 2: group over 31",
            "refused 4 row 1: group over 31",
        ],
    ),
];

const TEN: &str = "refused 10: ladder group over 31";
const TWENTYONE: &str = "refused 21: band over 14 or side over 1";

/// Catches a refusal that is believed though there should be none or another, and one that is missed.
#[test]
fn least_trade_fails_with_a_wrong_refusal() {
    let good = book("stand-in-refused-trade", &[BOND; 3]);
    let (bad, mut bytes) = (
        temporary("stand-in-bad-trade.book"),
        fs::read(&good).unwrap(),
    );
    // The second row is of no currency.
    bytes[8 + 16] = 32;
    fs::write(&bad, bytes).unwrap();
    for (fault, is_good, asked, [by_library, expected]) in REFUSALS {
        let book = if is_good { &good } else { &bad };
        let why = format!(
            "by the library: {by_library}\nby the currency, the band and its ladder: {expected}"
        );
        assert_eq!(told_of_trade(fault, book, asked), why, "{fault}");
    }
    // Without a fault each is told in words.
    let words = told_of_trade("none", &bad, "7 5 short 1000");
    let row = "refused 4 row 1: group over 31\ninterest row: group 32, kind government, ";
    assert!(words.starts_with(row), "{words}");
    let words = told_of_trade("none", &bad, "7 15 short 1000");
    assert_eq!(words, format!("{TWENTYONE}\nband 15, and 14 is the last"));
}
