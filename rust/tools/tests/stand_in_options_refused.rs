//! The command over a library that refuses option tables wrongly, or takes them, which it must notice.

mod common;
mod option_tables;
mod stand_in_library;

use common::temporary;
use option_tables::csv;
use stand_in_library::{fails, told_of_options};
use std::fs;

/// The reasons of 16 and 17, and what is looked at here.
const SIXTEEN: &str =
    "16: more than 1,000 options, or the length is not 2 bytes plus 18 for each option counted";
const SEVENTEEN: &str = "a field of the option out of its range";
const LIMITS: &str = "by its limits the table is";

/// An option on gold, one that is exercised for certain, and one on no currency.
const GOLD: &str = "fx,0,bought call,none,100,5000,0,0,0,0";
const CERTAIN: &str = "fx,0,bought call,none,100,10000,0,0,0,0";
const STRAY: &str = "fx,32,bought call,none,100,5000,0,0,0,0";

/// Catches a refusal that is believed though the table is accepted, and a table that is taken though it
/// should be refused; by `pack` too.
#[test]
fn options_and_pack_fail_with_a_wrong_refusal() {
    let taken = format!("the library takes it, {LIMITS} refused with ");
    let refused = format!("\n{LIMITS} refused with 17 in row 1: option: class fx, group 32, ");
    let many = format!("{taken}16: the table counts 1,001 options, and 1,000 are the most");
    let share = "equity,1,bought put,index,100,5000,0,0,0,1";
    for (fault, lines, why) in [
        (
            "options_999",
            vec![GOLD; 1_000],
            format!("refused {SIXTEEN}\n{LIMITS} accepted"),
        ),
        ("options_1001", vec![GOLD; 1_001], many),
        (
            "group_32_taken",
            vec![GOLD, STRAY],
            format!("{taken}17 in row 1: option: class fx, group 32, "),
        ),
        (
            "days_of_shares_taken",
            vec![share],
            format!("{taken}17 in row 0: option: class equity, group 1, "),
        ),
        (
            "delta_10000_refused",
            vec![GOLD, CERTAIN],
            format!("refused 17 row 1: {SEVENTEEN}\n{LIMITS} accepted"),
        ),
        (
            "last_bad_told",
            vec![GOLD, STRAY, STRAY],
            format!("refused 17 row 2: {SEVENTEEN}{refused}"),
        ),
        (
            "bad_row_untold",
            vec![GOLD, STRAY],
            format!("refused 17 row 0: {SEVENTEEN}{refused}"),
        ),
        (
            "sixteen_for_seventeen",
            vec![GOLD, STRAY],
            format!("refused {SIXTEEN}{refused}"),
        ),
    ] {
        let text = csv("stand-in", &lines);
        let told = told_of_options("refusal", fault, &text);
        assert!(told.starts_with(&why), "{fault}: {told}");
        let out = temporary("stand-in.options");
        let packed = fails(fault, &["pack", "--options", &text, &out]);
        assert_eq!(packed, format!("market-risk: {text}: {told}\n"));
    }
}

/// The same of bytes whose length is not that of their count.
#[test]
fn options_fails_with_a_wrong_length() {
    let table = temporary("stand-in-bad.options");
    let told = |fault: &str, bytes: &[u8]| {
        fs::write(&table, bytes).unwrap();
        told_of_options("length", fault, &table)
    };
    let length = "16: the table counts 0 options, which have 2 bytes, and has 3";
    let any = told("any_length", &[0, 0, 7]);
    let taken = format!("the library takes it, {LIMITS} refused with {length}");
    assert_eq!(any, taken);
    // An option of class 0, and a byte more.
    let bad = [&[1, 0], &[0; 19][..]].concat();
    let length = "16: the table counts 1 options, which have 20 bytes, and has 21";
    let first = format!("refused 17 row 0: {SEVENTEEN}\n{LIMITS} refused with {length}");
    assert_eq!(told("seventeen_first", &bad), first);
    let right = fails("none", &["options", &table]);
    assert!(right.contains(&format!(": refused {SIXTEEN}\n")), "{right}");
}
