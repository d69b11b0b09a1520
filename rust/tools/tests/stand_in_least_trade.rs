//! The command over a library that finds the least trade wrongly, which it must notice.

mod common;
mod stand_in_library;

use common::{book, least_trade};
use stand_in_library::{run, told_of_trade};

/// A bond long 100 in band 5 of currency 7, E3 of document 01 in currency 8, and a bond long 1,000,000 in
/// band 5 of currency 9.
const ROWS: [&str; 5] = [
    "interest,7,government,900,800,0,100,0",
    "interest,8,government,270,800,0,75,0",
    "interest,8,government,900,800,0,0,30",
    "interest,8,government,6000,800,0,10,0",
    "interest,9,government,900,800,0,1000000,0",
];

/// Wrong answers, what they are answers to, and what is told: 17.5 for each unit in band 5, 1.75 for each that
/// is matched; in currency 8 between 0 and 30 units short 10.5 less for each, then 17.5 more.
const WRONG: [(&str, &str, &str); 18] = [
    (
        "least_trade",
        "7 5 short 1000",
        "the library finds no amount, and with 100 the charge is 175.000, within 1,000.000",
    ),
    (
        "one_too_many",
        "7 5 short 1000",
        "the library's amount is 49, and with 48 the charge is 994.000, within 1,000.000",
    ),
    (
        "one_too_many",
        "7 5 short 1750",
        "the library's amount is 1, and with 0 the charge is 1,750.000, within 1,750.000",
    ),
    (
        "one_too_few",
        "7 5 short 1000",
        "the library's amount is 47, and with it the charge is 1,009.750, over 1,000.000",
    ),
    (
        "one_too_few",
        "7 5 short 1749.999",
        "the library's amount is 0, and with it the charge is 1,750.000, over 1,749.999",
    ),
    (
        "none_for_found",
        "8 5 short 420",
        "the library finds no amount, and with 30 the charge is 420.000, within 420.000",
    ),
    (
        "none_for_zero",
        "8 5 long 735",
        "the library finds no amount, and with 0 the charge is 735.000, within 735.000",
    ),
    (
        "most_left_out",
        "9 5 short 1750000",
        "the library finds no amount, and with 1,000,000 the charge is 1,750,000.000, within 1,750,000.000",
    ),
    (
        "found_for_none",
        "7 5 short 0",
        "the library's amount is 1,000,000, and with it the charge is 17,498,425.000, over 0.000",
    ),
    (
        "zero_for_none",
        "7 5 short 0",
        "the library's amount is 0, and with it the charge is 1,750.000, over 0.000",
    ),
    (
        "past_the_most",
        "9 5 short 1749999",
        "the library's amount is 1,000,001, and 1,000,000 is the most",
    ),
    (
        "other_side",
        "7 5 short 1000",
        "the library finds no amount, and with 100 the charge is 175.000, within 1,000.000",
    ),
    // Band 6 bears 22.5 for each unit, and 30% of what is matched with band 5: 525 at the least. In currency 8
    // each unit of it takes 13.5 off, so that 18 are enough there.
    (
        "other_band",
        "7 5 short 175",
        "the library finds no amount, and with 100 the charge is 175.000, within 175.000",
    ),
    (
        "other_band",
        "8 5 short 500",
        "the library's amount is 18, and with it the charge is 546.000, over 500.000",
    ),
    (
        "other_currency",
        "7 5 short 1000",
        "the library's amount is 0, and with it the charge is 1,750.000, over 1,000.000",
    ),
    (
        "below_limit",
        "8 5 short 420",
        "the library finds no amount, and with 30 the charge is 420.000, within 420.000",
    ),
    (
        "below_limit",
        "7 5 short 994",
        "the library's amount is 49, and with 48 the charge is 994.000, within 994.000",
    ),
    (
        "interest_ladder",
        "7 5 short 1000",
        "gross: the bands give 17500, the library 0",
    ),
];

#[test]
fn least_trade_fails_with_a_wrong_answer() {
    let book = book("stand-in-trade", &ROWS);
    for (fault, asked, why) in WRONG {
        let told = told_of_trade(fault, &book, asked);
        assert_eq!(told.lines().next(), Some(why), "{fault}: {told}");
    }
    // What is right stays so, and what a fault does not touch.
    for (fault, asked) in [
        ("none", "7 5 short 1000"),
        ("none", "8 5 short 420"),
        ("none", "9 5 short 1749999"),
        ("most_left_out", "7 5 short 1000"),
        ("none_for_zero", "7 5 short 1000"),
        ("zero_for_none", "8 5 short 420"),
    ] {
        let right = run(fault, &least_trade(&book, asked));
        assert!(right.status.success(), "{fault}: {asked}");
    }
}
