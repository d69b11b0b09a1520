//! The page over a library with wrong figures, of which none may be written.

mod common;
mod stand_in_library;

use common::{packed, temporary};
use stand_in_library::run;
use std::fs;

/// What is told of a fault. An old page must stay as it is.
fn told(fault: &str, book: &str, asked: &str) -> String {
    let page = temporary("stand-in.html");
    fs::write(&page, "old").unwrap();
    let words: Vec<&str> = ["html", book, "-o", &page]
        .into_iter()
        .chain(asked.split_whitespace())
        .collect();
    let output = run(fault, &words);
    assert_eq!(output.status.code(), Some(1), "{fault}");
    assert!(output.stdout.is_empty(), "{fault}");
    assert_eq!(fs::read_to_string(&page).unwrap(), "old", "{fault}");
    String::from_utf8(output.stderr).unwrap()
}

/// Catches a page of figures that were not looked at: each call that a page is made of is taken out
/// or gives a wrong figure.
#[test]
fn wrong_figures_make_no_page() {
    let mixed = packed("mixed", "stand-in-html");
    let bank = packed("small-bank", "stand-in-html");
    let trade = "--currency 1 --band 4 --side long --limit 90000";
    for (fault, book, why) in [
        ("charge", &mixed, "the library took 0"),
        ("none_taken", &mixed, "the library took 0"),
        ("specifics_shifted", &mixed, "has no interest rows"),
        ("interest_ladder", &mixed, "gross: the bands give"),
        ("commodity_ladder", &mixed, "does not add up: "),
        ("small_bank", &bank, "does not add up: foreign exchange"),
        ("per_cents_exchanged", &bank, "does not add up: commodity"),
        ("net", &mixed, "netted book is no book"),
        ("offset", &mixed, "offset book is no book"),
        ("net_and_offset", &mixed, "offset book is no book"),
    ] {
        let told = told(fault, book, "");
        assert!(told.contains(why), "{fault}: {told}");
    }
    let told = told("least_trade", &mixed, trade);
    assert!(told.contains("the library finds no amount"), "{told}");
    let page = temporary("stand-in-none.html");
    let words: Vec<&str> = ["html", &mixed, "-o", &page]
        .into_iter()
        .chain(trade.split(' '))
        .collect();
    assert!(run("none", &words).status.success());
}
