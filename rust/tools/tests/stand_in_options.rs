//! The command over a library that charges options wrongly, which it must notice.

mod common;
mod option_tables;
mod stand_in_library;

use common::{sample, temporary};
use option_tables::csv;
use stand_in_library::{run, told_of_options};
use std::fs;

/// A row as it is told: its class, group and kind, its days, and its amounts.
fn row(of: [&str; 3], days: &str, [long, short]: [&str; 2]) -> String {
    let [class, group, kind] = of;
    let fields = format!("group {group}, kind {kind}, days {days}, coupon 0, issue 0");
    format!("{class} row: {fields}, long {long}, short {short}")
}

/// Wrong books of the sample, and what is told of them first.
fn books() -> Vec<(&'static str, String)> {
    let other = |place: &str, library: &str, own: &str| {
        format!("written, {place} is by the library {library}, by the options {own}")
    };
    let bytes = |told: u64| format!("the library tells of {told} bytes, by the options 152");
    let share = |sides| row(["equity", "3", "ordinary"], "0", sides);
    let currency = |sides| row(["fx", "5", "none"], "0", sides);
    let stock = |days| row(["commodity", "4", "none"], days, ["0", "18,025"]);
    let index = |kind| row(["equity", "3", kind], "0", ["0", "1,500"]);
    let rounded = other("equity row 0", &share(["0", "969"]), &share(["0", "970"]));
    vec![
        ("options", bytes(0)),
        ("deltas_longer", bytes(168)),
        ("last_option_missing", bytes(136)),
        ("deltas_down", rounded.clone()),
        ("deltas_to_nearest", rounded),
        (
            "sold_puts_short",
            other(
                "fx row 1",
                &currency(["0", "4,880"]),
                &currency(["4,880", "0"]),
            ),
        ),
        (
            "calls_long",
            other("equity row 0", &share(["970", "0"]), &share(["0", "970"])),
        ),
        (
            "days_dropped",
            other("commodity row 0", &stock("0"), &stock("1,081")),
        ),
        (
            "shares_alike",
            other("equity row 2", &index("ordinary"), &index("index")),
        ),
        (
            "rows_reversed",
            other("equity row 0", &index("index"), &share(["0", "970"])),
        ),
        (
            "fx_as_commodities",
            "fx has 3 rows written, the library's book 0".into(),
        ),
        (
            "row_of_delta_0",
            "refused 12: output shorter than the result".into(),
        ),
    ]
}

/// Wrong figures of the sample, and what is told of them first.
const FIGURES: [(&str, &str); 14] = [
    (
        "gammas_exchanged",
        "equity gamma is by the library 275,200.000, by the options 9,392.000",
    ),
    (
        "gamma_for_vega",
        "equity gamma is by the library 10,500.000, by the options 9,392.000",
    ),
    (
        "signs_by_call",
        "equity gamma is by the library 896.000, by the options 9,392.000",
    ),
    (
        "positive_gamma",
        "fx gamma is by the library 287,680.000, by the options 275,200.000",
    ),
    (
        "vega_as_gamma",
        "equity vega is by the library 6,500.000, by the options 10,500.000",
    ),
    (
        "delta_0_skipped",
        "equity gamma is by the library 8,496.000, by the options 9,392.000",
    ),
    (
        "groups_together",
        "equity vega is by the library 2,500.000, by the options 10,500.000",
    ),
    (
        "commodities_move_8",
        "commodity gamma is by the library 66,880.000, by the options 235,125.000",
    ),
    (
        "whole_shift",
        "equity vega is by the library 42,000.000, by the options 10,500.000",
    ),
    (
        "more_alone",
        "of fx 5 alone, fx gamma is by the library 275,200.001, by its options 275,200.000",
    ),
    (
        "greeks_in_total",
        "total is by the library 3,703,967.000, by its charge of the book 2,780,250.000",
    ),
    (
        "deltas_uncharged",
        "equity specific is by the library 0.000, by its charge of the book 152,960.000",
    ),
    (
        "charge",
        "equity specific is by the library 152,960.000, by its charge of the book 0.000",
    ),
    ("none_taken", "the file has 9 rows, the library took 0"),
];

/// Catches figures that are printed, or a book that is written, without a look at it.
#[test]
fn options_fails_with_a_wrong_answer() {
    let table = sample("options");
    let figures = FIGURES.map(|(fault, why)| (fault, why.to_string()));
    for (fault, why) in books().into_iter().chain(figures) {
        let told = told_of_options("answer", fault, &table);
        assert_eq!(told.lines().next(), Some(&why[..]), "{fault}: {told}");
    }
    // Three impacts of 112.5 mils on one underlying.
    let halves = csv("halves", &["commodity,1,sold put,none,1,0001,1,0,0,0"; 3]);
    for (fault, figure) in [("halves_each", "0.339"), ("halves_down", "0.337")] {
        let why = format!("commodity gamma is by the library {figure}, by the options 0.338");
        let told = told_of_options("answer", fault, &halves);
        assert_eq!(told.lines().next(), Some(&why[..]));
    }
    let out = temporary("stand-in-right.deltas");
    for (table, length) in [(&table, 152), (&halves, 56)] {
        let right = run("none", &["options", table, "-o", &out]);
        let errors = String::from_utf8_lossy(&right.stderr);
        assert!(right.status.success(), "{errors}");
        assert_eq!(fs::read(&out).unwrap().len(), length);
    }
}

/// Catches a difference that hides another: each is a line of its own.
#[test]
fn all_that_differs_is_told() {
    let lines = |fault: &str| -> Vec<String> {
        let told = told_of_options("all", fault, &sample("options"));
        told.lines().map(String::from).collect()
    };
    let alone = lines("more_alone");
    let sum = "fx gamma is by the library 275,200.000, by its underlyings alone 275,200.001";
    assert_eq!(alone[1..], [sum]);
    // Two classes by the options, each of the three underlyings that have a gamma alone in both classes,
    // and the two classes by their underlyings, of which each has the other's.
    let exchanged = lines("gammas_exchanged");
    let count = |part: &str| exchanged.iter().filter(|line| line.contains(part)).count();
    assert_eq!(count(", by the options "), 2, "{exchanged:?}");
    assert_eq!(count(" alone, "), 6, "{exchanged:?}");
    assert_eq!(exchanged.len(), 8, "{exchanged:?}");
}
