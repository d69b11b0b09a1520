//! The command over a library that does not heed a table, accepts one against its conditions or
//! tries it out of its order, which it must notice.

mod common;
mod stand_in_library;

use common::{packed, temporary};
use stand_in_library::{fails, run, told_of, BY, HERE};
use std::fs;

/// Catches a comparison under document 01's table alone, with no refused tables, or with none
/// beside a refused book or group; and one that does not look at the table that is given.
#[test]
fn compare_fails_with_each_fault_of_tables() {
    for (fault, call) in [
        ("table_ignored", "charge"),
        ("per_cents_alone", "charge"),
        ("weights_alone", "charge"),
        ("nineteen_accepted", "charge"),
        ("table_after_book", "charge"),
        ("table_before_group", "interest ladder"),
    ] {
        let told = told_of(call, fault);
        assert!(told.starts_with(&format!("{call}{BY}entry ")), "{told}");
    }
    for (fault, byte) in [
        ("table", "byte 2 is 0 "),
        ("table_changed", "byte 35 is 99 "),
    ] {
        let told = told_of("table", fault);
        assert!(told.starts_with(&format!("table: {byte}")), "{told}");
    }
}

/// A sample, and the table beside it.
fn under_a_table(test: &str) -> (String, String) {
    (
        packed("steps", test),
        format!("{HERE}/../../samples/steps.table"),
    )
}

/// Catches a ladder that is drawn under a table that the library has not heeded.
#[test]
fn ladder_fails_with_a_table_that_is_not_heeded() {
    let (book, table) = under_a_table("unheeded");
    let words = ["ladder", &book, "--currency", "7", "--table", &table];
    assert!(run("none", &words).status.success());
    for (fault, why) in [
        (
            "table_ignored",
            "gross: the bands give 13870, the library 11320",
        ),
        (
            "per_cents_alone",
            "gross: the bands give 13870, the library 11320",
        ),
        (
            "weights_alone",
            "charge: the bands give 921900, the library 898200",
        ),
    ] {
        let error = fails(fault, &words);
        assert!(error.contains(why), "{fault}: {error}");
    }
}

/// Catches a table that is taken because the library does not refuse it.
#[test]
fn a_table_that_is_accepted_against_its_conditions_is_told() {
    let (book, table) = under_a_table("accepted");
    let text = fs::read_to_string(table).unwrap();
    let over = temporary("over.table");
    fs::write(&over, text.replace("zones-1-3 90", "zones-1-3 101")).unwrap();
    let doubt = "the library gives 0, the conditions lead to 19\nzones-1-3 is 101%, over 100%";
    for words in [
        &["table", &over][..],
        &["report", &book, "--table", &over],
        &["ladder", &book, "--currency", "7", "--table", &over],
    ] {
        assert!(fails("none", words).contains("over.table: refused 19"));
        for fault in ["nineteen_accepted", "table_after_book", "interest_ladder"] {
            let error = fails(fault, words);
            assert!(error.contains(doubt), "{fault}: {error}");
        }
    }
}
