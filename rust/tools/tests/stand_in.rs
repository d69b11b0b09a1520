//! The command over a library that has calls taken out, miscounts rows, has wrong lists of the
//! currencies, ladders that do not add up or misread floating-rate notes, which it must notice.

mod common;
mod stand_in_library;

use common::packed;
use stand_in_library::{fails, run, told_of, BY, CALLS};

/// Catches a comparison that does not reach the linked library: of the second calculation
/// with itself, or by a `Proved` that is answered from elsewhere, in any of the calls. The
/// last, whose result is no entries, is taken out among the faults of tables.
#[test]
fn compare_fails_without_each_call() {
    let words = ["compare", "--seed", "1", "--count", "300"];
    let whole = run("none", &words);
    assert!(whole.status.success());
    assert!(String::from_utf8_lossy(&whole.stdout).contains(" 300 pairs equal "));
    for call in &CALLS[..14] {
        let error = fails(call, &words);
        let told = format!("\n{}{BY}entry ", call.replace('_', " "));
        assert!(error.contains(&told), "without {call}: {error}");
        assert!(error.contains(" is 0 and "), "without {call}: {error}");
    }
    assert!(fails("all", &words).contains(BY));
}

/// What the command says of a charge.
fn told(fault: &str) -> String {
    told_of("charge", fault)
}

/// Catches a comparison that leaves out the rows taken, or looks at them in accepted books
/// alone: the other entries of these reports are the proved library's own.
#[test]
fn compare_fails_with_each_wrong_count_of_rows() {
    for (fault, wrong, right) in [
        ("none_taken", 0, 1),
        ("one_more_taken", 1, 0),
        ("taken_kept", 1, 0),
    ] {
        let expected = format!("charge{BY}entry 10 is {wrong} and {right}");
        assert_eq!(told(fault), expected, "{fault}");
    }
}

/// Catches a comparison that leaves out the lists, or looks at their sums alone, or looks at
/// them in accepted books alone.
#[test]
fn compare_fails_with_each_fault_of_the_lists() {
    for (fault, first) in [
        ("specifics_shifted", "entry 11 is 0 and "),
        ("generals_shifted", "entry 43 is 0 and "),
        ("lists_exchanged", "entry 11 is "),
        ("equity_in_list", "entry 18 is "),
        ("currency_left_out", "entry 50 is 0 and "),
        ("entry_kept", "entry 74 is 9 and 0"),
    ] {
        let told = told(fault);
        assert!(told.starts_with(&format!("charge{BY}{first}")), "{told}");
    }
}

/// Catches a comparison whose books have no floating-rate notes, or notes whose two maturities
/// say the same, or none that is broken.
#[test]
fn compare_fails_with_each_wrong_reading_of_notes() {
    for (fault, first) in [
        ("specific_at_fixing", "entry 3 is "),
        ("ladder_at_final", "entry 4 is "),
    ] {
        let told = told(fault);
        assert!(told.starts_with(&format!("charge{BY}{first}")), "{told}");
    }
    let words = ["compare", "--seed", "1", "--count", "300"];
    let error = fails("six_for_fifteen", &words);
    assert!(error.contains(&format!("\ncheck{BY}entry 0 is 6 and 15\n")));
    assert!(error.contains("\ninterest,0,floating,"), "{error}");
}

/// Catches a report that is printed without a look at the rows taken.
#[test]
fn report_fails_with_a_wrong_count_of_rows() {
    let keyed = packed("keyed", "stand-in-report");
    let words = ["report", &keyed];
    assert!(run("none", &words).status.success());
    let error = fails("none_taken", &words);
    assert!(error.contains("the file has 3 rows, the library took 0"));
    let error = fails("one_more_taken", &words);
    assert!(error.contains("the file has 3 rows, the library took 4"));
}

/// Catches a report that is printed without a look at the lists, with the option or without.
#[test]
fn report_fails_with_a_fault_of_the_lists() {
    let treasury = packed("treasury", "stand-in-report");
    let plain = ["report", &treasury];
    let with_currencies = ["report", &treasury, "--currencies"];
    for words in [&plain[..], &with_currencies] {
        assert!(run("none", words).status.success());
        for (fault, why) in [
            (
                "specifics_shifted",
                "currency 2 has no interest rows, its interest specific is 16000000 mils",
            ),
            (
                "generals_shifted",
                "currency 8 has no interest rows, its interest general is 735000 mils",
            ),
            (
                "lists_exchanged",
                "interest specific is 20000000 mils, by currencies 4005000",
            ),
            (
                "equity_in_list",
                "interest specific is 20000000 mils, by currencies 28000000",
            ),
            (
                "currency_left_out",
                "interest general is 4005000 mils, by currencies 3270000",
            ),
        ] {
            let error = fails(fault, words);
            assert!(error.contains(why), "{fault}: {error}");
        }
    }
}

/// Catches a ladder that is drawn without a look at the library's figures.
#[test]
fn ladder_fails_without_its_call() {
    let keyed = packed("keyed", "stand-in");
    let words = ["ladder", &keyed, "--currency", "7"];
    assert!(run("none", &words).status.success());
    let error = fails("interest_ladder", &words);
    assert!(error.contains("gross: the bands give 15750, the library 0"));
    let stock = packed("commodity", "stand-in");
    let words = ["ladder", &stock, "--commodity", "5"];
    assert!(run("none", &words).status.success());
    let error = fails("commodity_ladder", &words);
    assert!(error.contains("matches: the bands give 1400, the library 0"));
}

/// How the charge of the commodity sample is made up.
const PARTS: &str =
    "45,000.000 (1.5% of gross) + 27,000.000 (13.5% of residual) + 7,200.000 (0.6% of carried)";

/// Wrong ladders of currency 7 of the keyed book, and the line of it that is not so.
const WRONG_CURRENCY: [(&str, &str); 6] = [
    (
        "match_made_up",
        "gross 1,575.0 = 2 x 787.5 matched + 262.5 residual",
    ),
    (
        "one_side_in_gross",
        "gross 1,050.0 = 1,050.0 weighted long + 525.0 weighted short",
    ),
    (
        "match_dropped",
        "gross 1,575.0 = 2 x 0.0 matched + 525.0 residual",
    ),
    (
        "residual_with_sign",
        "residual 1,844,674,407,370,954,636.6 = 1,050.0 weighted long - 525.0 weighted short",
    ),
    ("charge_too_low", "charge 524.999 >= 525.0 residual"),
    (
        "charge_too_high",
        "2 x charge 2,100.002 <= 1,575.0 gross + 525.0 residual",
    ),
];

/// Wrong ladders of commodity 5 of the commodity sample, and the beginning of that line.
const WRONG_COMMODITY: [(&str, &str); 4] = [
    (
        "carried_once_more",
        "carried 1,400 = 0 + 0 + 200 + 200 + 400 + 400",
    ),
    ("carried_once_more", "charge 80,400.000 = "),
    (
        "matches_dropped",
        "gross 3,000 = 2 x 0 matched + 200 residual",
    ),
    ("one_side_charged", "charge 58,200.000 = "),
];

/// Catches a ladder that is printed without a look at what it adds up to, and one that fails
/// without the line that is not so.
#[test]
fn ladder_fails_with_figures_that_do_not_add_up() {
    let keyed = packed("keyed", "adding-up");
    let words = ["ladder", &keyed, "--currency", "7"];
    for (fault, line) in WRONG_CURRENCY {
        let error = fails(fault, &words);
        let line = format!("\ndoes not add up: {line}\n");
        assert!(error.contains(&line), "{fault}: {error}");
    }
    let stock = packed("commodity", "adding-up");
    let words = ["ladder", &stock, "--commodity", "5"];
    for (fault, line) in WRONG_COMMODITY {
        let error = fails(fault, &words);
        let parts = if line.starts_with("charge") {
            PARTS
        } else {
            ""
        };
        let line = format!("\ndoes not add up: {line}{parts}\n");
        assert!(error.contains(&line), "{fault}: {error}");
    }
}

/// Catches a comparison that leaves a figure of a ladder out.
#[test]
fn compare_fails_with_each_wrong_ladder() {
    for (call, faults) in [
        ("interest ladder", &WRONG_CURRENCY[..]),
        ("commodity ladder", &WRONG_COMMODITY[..]),
    ] {
        for (fault, _) in faults {
            let told = told_of(call, fault);
            assert!(told.starts_with(&format!("{call}{BY}entry ")), "{told}");
        }
    }
}
