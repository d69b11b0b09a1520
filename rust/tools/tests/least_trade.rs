//! `least-trade` as a user meets it.

mod common;

use common::{book, least_trade as words, packed, prints, temporary};
use std::fs::{self, File};
use std::process::Command;

/// A government bond long 100 in band 5 of currency 7: 17.5 for each unit, 1,750 in all.
const BOND: &str = "interest,7,government,900,800,0,100,0";

/// The lines above the ladders, their words one space apart.
fn head(text: &str) -> Vec<String> {
    let squeezed = |line: &str| line.split_whitespace().collect::<Vec<_>>().join(" ");
    let (head, _) = text.split_once("\n\nthe ladder before\n").unwrap();
    head.lines().map(squeezed).collect()
}

/// The amount that is told, or nothing.
fn amount(text: &str) -> Option<String> {
    let (_, told) = text.split_once(": ").unwrap();
    let first = told.split(' ').next().unwrap();
    match first {
        "no" => None,
        number => Some(number.to_string()),
    }
}

/// By hand: a unit short takes 17.5 off what is left and costs a tenth of that as a match, 15.75 in all.
#[test]
fn one_bond_by_hand() {
    let book = book("trade-bond", &[BOND]);
    for (limit, expected) in [
        ("1000", Some("48")),
        ("994", Some("48")),
        ("993.999", Some("49")),
        ("1009.750", Some("47")),
        ("1_009.749", Some("48")),
        ("1750", Some("0")),
        ("1749.999", Some("1")),
        ("175", Some("100")),
        ("174.999", None),
        ("0", None),
        ("18446744073709551.615", Some("0")),
    ] {
        let text = prints(&words(&book, &format!("7 5 short {limit}")));
        assert_eq!(amount(&text).as_deref(), expected, "{limit}");
    }
    // More of the same side only adds to it, and another currency has nothing.
    assert_eq!(amount(&prints(&words(&book, "7 5 long 1000"))), None);
    assert_eq!(amount(&prints(&words(&book, "8 5 long 0"))).unwrap(), "0");
    // Band 0 bears no weight.
    assert_eq!(amount(&prints(&words(&book, "7 0 short 1000"))), None);
    assert_eq!(
        amount(&prints(&words(&book, "7 0 short 1750"))).unwrap(),
        "0"
    );
}

/// What stands above the ladders where there is an amount, where it is 0 and where there is none.
#[test]
fn the_lines_above_the_ladders_by_hand() {
    let book = book("trade-head", &[BOND]);
    let text = prints(&words(&book, "7 5 short 1000"));
    let expected = [
        "short in band 5 of currency 7: 48 thousands are the least that bring the charge within the limit",
        "",
        "before 1,750.000 > 1,000.000 limit",
        "with short 48 994.000 <= 1,000.000 limit",
        "with short 47 1,009.750 > 1,000.000 limit",
    ];
    assert_eq!(head(&text), expected);
    assert_eq!(text.matches("\ncurrency 7: amounts").count(), 2);
    assert!(text.contains("\n\nthe ladder with short 48 in band 5\ncurrency 7: "));
    let text = prints(&words(&book, "7 5 short 1750"));
    let expected = [
        "short in band 5 of currency 7: 0 thousands, the charge is within the limit as it is",
        "",
        "before 1,750.000 <= 1,750.000 limit",
    ];
    assert_eq!(head(&text), expected);
    let ladder = prints(&["ladder", &book, "--currency", "7"]);
    assert!(text.ends_with(&format!("\n\nthe ladder before\n{ladder}")));
    // 1,000,000 short leave 999,900 at 17.5, and 100 matched cost 175.
    let text = prints(&words(&book, "7 5 short 0"));
    let expected = [
        "short in band 5 of currency 7: no amount of 0 to 1,000,000 thousands brings the charge within the limit",
        "",
        "before 1,750.000 > 0.000 limit",
        "with short 1,000,000 17,498,425.000 > 0.000 limit",
        "lowest, with short 100 175.000 > 0.000 limit",
    ];
    assert_eq!(head(&text), expected);
    assert!(text.ends_with(&format!("\n\nthe ladder before\n{ladder}")));
}

/// E3 of document 01: 30 is the only amount of all with which 420 are not passed.
#[test]
fn one_amount_alone_is_found() {
    let book = packed("zones", "trade");
    let text = prints(&words(&book, "7 5 short 420"));
    let expected = [
        "before 735.000 > 420.000 limit",
        "with short 30 420.000 <= 420.000 limit",
        "with short 29 430.500 > 420.000 limit",
    ];
    assert_eq!(head(&text)[2..], expected);
    let text = prints(&words(&book, "7 5 short 419.999"));
    assert_eq!(amount(&text), None);
    let lowest = "lowest, with short 30 420.000 > 419.999 limit";
    assert_eq!(head(&text).last().unwrap(), lowest);
}

/// The ladder with the amount is that of the book with a bond of so much in the band.
#[test]
fn the_ladder_after_is_that_of_the_book_with_the_trade() {
    let (book, traded) = (packed("zones", "after"), temporary("traded.book"));
    let more = common::book("trade-more", &["interest,7,government,800,800,0,0,25"]);
    prints(&["join", &book, &more, &traded]);
    let ladder = prints(&["ladder", &traded, "--currency", "7"]);
    // 735 - 25 x 10.5.
    let text = prints(&words(&book, "7 5 short 472.5"));
    let end = format!("\n\nthe ladder with short 25 in band 5\n{ladder}");
    assert!(text.ends_with(&end), "{text}");
}

/// 1,000,000 is within the range, and one more is not: a bond of so much is matched at 10% of 17.5.
#[test]
fn the_largest_amount() {
    let most = book("trade-most", &["interest,7,government,900,800,0,1000000,0"]);
    let text = prints(&words(&most, "7 5 short 1750000"));
    assert_eq!(amount(&text).unwrap(), "1,000,000");
    let expected = [
        "with short 1,000,000 1,750,000.000 <= 1,750,000.000 limit",
        "with short 999,999 1,750,015.750 > 1,750,000.000 limit",
    ];
    assert_eq!(head(&text)[3..], expected);
    let over = book("trade-over", &["interest,7,government,900,800,0,1000001,0"]);
    let text = prints(&words(&over, "7 5 short 1750017.499"));
    let lowest = "lowest, with short 1,000,000 1,750,017.500 > 1,750,017.499 limit";
    assert_eq!(head(&text).last().unwrap(), lowest);
    let text = prints(&words(&over, "7 5 short 1750017.5"));
    assert_eq!(amount(&text).unwrap(), "1,000,000");
}

/// Days and a coupon stand for their band, and the book may be standard input.
#[test]
fn other_ways_to_ask_for_the_same() {
    let book = book("trade-ways", &[BOND]);
    let expected = prints(&words(&book, "7 5 short 1000"));
    for [days, coupon] in [
        ["900", "800"],
        ["721", "300"],
        ["1080", "10_000"],
        ["1008", "299"],
    ] {
        let of = ["--currency", "7", "--days", days, "--coupon", coupon];
        let rest = ["least-trade", "--limit", "1000", &book, "--side", "short"];
        assert_eq!(prints(&[&rest[..], &of].concat()), expected, "{days}");
    }
    let mut piped = Command::new(env!("CARGO_BIN_EXE_market-risk"));
    piped.stdin(File::open(&book).unwrap());
    let output = piped.args(words("-", "7 5 short 1000")).output().unwrap();
    assert_eq!(String::from_utf8(output.stdout).unwrap(), expected);
}

/// Under a table of 1% in every band a unit short takes 10 off and costs 1: 1,000 to 496 with 56.
#[test]
fn a_loaded_table_is_heeded() {
    let (book, table) = (book("trade-table", &[BOND]), temporary("trade.table"));
    let own = prints(&["table"]);
    let (_, rest) = own.split_once('\n').unwrap();
    fs::write(&table, format!("weights{}\n{rest}", " 100".repeat(15))).unwrap();
    let text = prints(&[&words(&book, "7 5 short 500")[..], &["--table", &table]].concat());
    let note = "under trade.table, not document 01's table:\nweights 100 100 ";
    assert!(text.starts_with(note), "{text}");
    let (_, text) = text.split_once("\n\n").unwrap();
    let expected = [
        "before 1,000.000 > 500.000 limit",
        "with short 56 496.000 <= 500.000 limit",
        "with short 55 505.000 > 500.000 limit",
    ];
    assert_eq!(head(text)[2..], expected);
    // Document 01's own is not told of.
    fs::write(&table, &own).unwrap();
    let plain = prints(&words(&book, "7 5 short 500"));
    let words = [&words(&book, "7 5 short 500")[..], &["--table", &table]].concat();
    assert_eq!(prints(&words), plain);
}
