//! The command over a library that charges a small bank wrongly or refuses its book in the wrong
//! way, which it must notice.

mod common;
mod stand_in_library;

use common::packed;
use stand_in_library::{fails, run, told_within, BY};

/// How the charges of the sample are made up.
const EXCHANGE: &str = "69,600.000 (8% of net short) + 9,600.000 (8% of gold)";
const COMMODITY: &str = "30,000.000 (15% of net) + 27,600.000 (3% of gross)";

/// Wrong charges of the sample, and the one line of it that is not so.
fn wrong() -> [(&'static str, String); 6] {
    let commodity = |charge: &str| format!("commodity {charge} = {COMMODITY}");
    [
        ("per_cents_exchanged", commodity("144,000.000")),
        ("both_of_net", commodity("36,000.000")),
        ("nets_together", commodity("33,600.000")),
        ("simplified_by_ladder", commodity("52,800.000")),
        (
            "gold_a_currency",
            format!("foreign exchange 69,600.000 = {EXCHANGE}"),
        ),
        (
            "total_of_one",
            "total 57,600.000 = 79,200.000 + 57,600.000".into(),
        ),
    ]
}

/// Catches charges that are printed without a look at what they add up to, and a failure that
/// does not tell the line, or tells one that is so.
#[test]
fn small_bank_fails_with_charges_that_do_not_add_up() {
    let book = packed("small-bank", "stand-in");
    let words = ["small-bank", &book];
    assert!(run("none", &words).status.success());
    for (fault, line) in wrong() {
        let error = fails(fault, &words);
        let told = format!("small-bank.book: does not add up: {line}\n");
        assert!(error.ends_with(&told), "{fault}: {error}");
    }
    let error = fails("small_bank", &words);
    let lines = [
        format!("does not add up: foreign exchange 0.000 = {EXCHANGE}"),
        format!("does not add up: commodity 0.000 = {COMMODITY}"),
    ];
    assert!(
        error.ends_with(&format!("{}\n", lines.join("\n"))),
        "{error}"
    );
}

/// Catches charges of a part of a book.
#[test]
fn small_bank_fails_with_a_book_that_should_be_refused() {
    let (mixed, equity) = (packed("mixed", "charged"), packed("equity", "charged"));
    for book in [&mixed, &equity] {
        assert!(fails("none", &["small-bank", book]).contains("refused 20: "));
    }
    let error = fails("twenty_accepted", &["small-bank", &mixed]);
    assert!(error.contains("the library charged 4 interest and 3 equity rows"));
    for fault in ["twenty_accepted", "equity_accepted"] {
        let error = fails(fault, &["small-bank", &equity]);
        assert!(error.contains("the library charged 0 interest and 2 equity rows"));
    }
}

/// Catches a comparison without this call, without one of its figures, or without books that
/// are refused with 20 beside another fault and in each of its two ways.
#[test]
fn compare_fails_with_each_fault_of_a_small_bank() {
    let figures = wrong().map(|(fault, _)| fault);
    let refusals = [
        "twenty_accepted",
        "equity_accepted",
        "twenty_after_rows",
        "twenty_before_length",
        "twenty_with_row",
        "figure_kept",
    ];
    for fault in figures.into_iter().chain(refusals) {
        let told = told_within("500", "small bank", fault);
        assert!(told.starts_with(&format!("small bank{BY}entry ")), "{told}");
    }
}
