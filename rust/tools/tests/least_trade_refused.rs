//! `least-trade` where it is refused or asked wrongly.

mod common;

use common::{book, fails, packed, prints, temporary};
use std::fs;

/// The command on a book, with some of its options.
fn words<'a>(book: &'a str, options: &'a str) -> Vec<&'a str> {
    let mut words = vec!["least-trade", book];
    words.extend(options.split_whitespace());
    words
}

/// Catches a refusal without its words, and one that is told out of its order: 10, 21, the book.
#[test]
fn refusals_are_told_in_words_and_in_their_order() {
    let good = packed("zones", "trade-refused");
    let bad = temporary("trade-refused.book");
    let mut bytes = fs::read(&good).unwrap();
    bytes[8 + 16] = 32;
    fs::write(&bad, bytes).unwrap();
    let ten = "refused 10: ladder group over 31\ncurrency 32, and 31 is the last\n";
    let twentyone = "refused 21: band over 14 or side over 1\nband 15, and 14 is the last\n";
    let most = twentyone.replace("band 15,", "band 18,446,744,073,709,551,615,");
    let row = "refused 4 row 1: group over 31\ninterest row: group 32, kind government, days 900, \
               coupon 800, issue 0, long 0, short 30; group may be 0 to 31\n";
    for (book, group, band, why) in [
        (&good, "32", "14", ten),
        (&bad, "32", "15", ten),
        (&good, "31", "15", twentyone),
        (&bad, "31", "15", twentyone),
        (&good, "0", "18446744073709551615", &most),
        (&bad, "31", "14", row),
    ] {
        let options = format!("--currency {group} --band {band} --side long --limit 1");
        let told = fails(1, &words(book, &options));
        assert_eq!(told, format!("market-risk: {book}: {why}"));
    }
    let options = "--currency 31 --band 14 --side long --limit 0";
    prints(&words(&good, options));
    let short = temporary("trade-short.book");
    fs::write(&short, [0; 7]).unwrap();
    let told = fails(1, &words(&short, options));
    let why = "refused 1: fewer than 8 bytes\nthe file has 7 bytes; ";
    let expected = format!("market-risk: {short}: {why}");
    assert!(told.starts_with(&expected), "{told}");
}

/// A refused table is told with what it breaks, before what is asked and before the book.
#[test]
fn refused_tables_are_told_with_what_they_break() {
    let (short, falling) = (
        temporary("trade-35.table"),
        temporary("trade-falling.table"),
    );
    fs::write(&short, [0; 35]).unwrap();
    let mut table = *market_risk::Table::amendment().bytes();
    table[10] = 124;
    fs::write(&falling, table).unwrap();
    let cut = temporary("trade-cut.book");
    fs::write(&cut, [0; 7]).unwrap();
    for (table, why) in [
        (
            &short,
            "refused 18: the table has not 36 bytes\nthe file has 35 bytes\n",
        ),
        (
            &falling,
            "refused 19: the table's weights fall or exceed 2,000, or its per cents are out of order\n\
             the weight of band 5 is 124, below band 4's 125\n",
        ),
    ] {
        let options = "--currency 7 --band 15 --side short --limit 0";
        let told = fails(1, &[&words(&cut, options)[..], &["--table", table]].concat());
        assert_eq!(told, format!("market-risk: {table}: {why}"));
    }
}

#[test]
fn wrong_command_lines() {
    let book = book("trade-words", &["interest,7,government,900,800,0,100,0"]);
    for (options, why) in [
        (
            "--currency 7 --days 36001 --coupon 0 --side short --limit 1",
            "--days is 36,001, and it may be 0 to 36,000",
        ),
        (
            "--currency 7 --days 0 --coupon 10001 --side short --limit 1",
            "--coupon is 10,001, and it may be 0 to 10,000",
        ),
        (
            "--currency 7 --band 5 --side 1 --limit 1",
            "least-trade: --side is '1', not long or short",
        ),
        (
            "--currency 7 --band x --side short --limit 1",
            "--band is 'x', not a whole number; write a whole number of 0 to 14",
        ),
        (
            "--currency 7 --band 5 --side short --limit 1,000",
            "--limit is '1,000', not currency units as 1000 or 994.5: thousands separators are not \
             taken; write 1000 if that is meant",
        ),
        (
            "--currency 7 --band 5 --side short --limit 1 --commodity 7",
            "no option '--commodity' of least-trade; --commodity is an option of ladder",
        ),
        (
            "--currency 7 --band 5 --side short --limit",
            "least-trade: --limit wants a value",
        ),
        (
            "--currency 7 --band 5 --side short --limit 1 other.book",
            "least-trade: 'other.book' is one file too many; market-risk least-trade BOOK \
             --currency G --band B --side long|short --limit X [--table FILE]",
        ),
    ] {
        let told = fails(2, &words(&book, options));
        assert_eq!(told, format!("market-risk: {why}\n"), "{options}");
    }
    let both = "--currency 7 --band 5 --side short --limit 1 --table -";
    assert!(fails(2, &words("-", both)).contains("read once only"));
    let help = prints(&["least-trade", "--help"]);
    assert!(help.starts_with("market-risk least-trade BOOK --currency G --band B "));
}
