//! The command over a library that writes the dearest book wrongly, which it must notice.

mod common;
mod stand_in_library;

use common::temporary;
use stand_in_library::{fails, run, told_within, BY};
use std::fs;

/// Wrong answers for rows and a largest amount, and what is told of them.
const WRONG: [(&str, [&str; 2], &str); 17] = [
    (
        "dearest",
        ["3", "100"],
        "the library tells of 0 bytes, not 56",
    ),
    (
        "one_row_fewer",
        ["3", "100"],
        "the library tells of 40 bytes, not 56",
    ),
    ("one_more", ["3", "100"], "an amount of 101 is over 100"),
    (
        "one_less",
        ["3", "100"],
        "does not add up: total 60,885.000 = 3 rows x 100 x 205.000",
    ),
    (
        "one_less",
        ["3", "1"],
        "the library's book is refused 8 row 0: ",
    ),
    (
        "government",
        ["3", "100"],
        "does not add up: total 37,500.000 = 3 rows x 100 x 205.000",
    ),
    (
        "qualifying",
        ["3", "100"],
        "does not add up: total 42,300.000 = 3 rows x 100 x 205.000",
    ),
    (
        "nearer_band",
        ["3", "100"],
        "does not add up: total 48,000.000 = 3 rows x 100 x 205.000",
    ),
    (
        "coupon_300",
        ["3", "100"],
        "does not add up: total 42,000.000 = 3 rows x 100 x 205.000",
    ),
    // 8% of 200; 10% of 12.5% of 100 that are matched.
    (
        "half_short",
        ["2", "100"],
        "does not add up: total 17,250.000 = 2 rows x 100 x 205.000",
    ),
    (
        "without_specific",
        ["3", "100"],
        "the library charges its book 61,500.000, and tells 37,500.000",
    ),
    (
        "without_general",
        ["3", "100"],
        "the library charges its book 61,500.000, and tells 24,000.000",
    ),
    (
        "commodity_rate",
        ["3", "100"],
        "the library charges its book 61,500.000, and tells 55,800.000",
    ),
    (
        "charge",
        ["3", "100"],
        "the library charges its book 0.000, and tells 61,500.000",
    ),
    ("full_refused", ["4000", "1"], "refused 22: "),
    (
        "zero_taken",
        ["3", "0"],
        "the library takes a largest amount of 0, and it may be 1 to 1,000,000,000",
    ),
    (
        "dear_twelve_first",
        ["4001", "0"],
        "refused 12: output shorter than the result\nasked for 4,001 rows x 0",
    ),
];

/// Catches figures that are printed, or a book that is written, without a look at it, and an old one that
/// is lost.
#[test]
fn dearest_fails_with_a_wrong_answer() {
    let out = temporary("stand-in.dearest");
    for (fault, [rows, most], why) in WRONG {
        fs::write(&out, "old").unwrap();
        let words = ["dearest", "--rows", rows, "--most", most];
        for more in [&["-o", &out][..], &[]] {
            let error = fails(fault, &[&words[..], more].concat());
            assert!(
                error.starts_with(&format!("market-risk: {why}")),
                "{fault}: {error}"
            );
        }
        assert_eq!(fs::read(&out).unwrap(), b"old", "{fault}");
    }
    // What is refused though it should be taken is told with what was asked for.
    let words = ["dearest", "--rows", "4000", "--most", "1"];
    let error = fails("full_refused", &words);
    assert!(error.ends_with("\nasked for 4,000 rows x 1\n"), "{error}");
    // Another book that is as dear is none that the command can doubt.
    for fault in ["none", "currencies"] {
        let right = run(
            fault,
            &["dearest", "--rows", "3", "--most", "100", "-o", &out],
        );
        assert!(right.status.success(), "{fault}");
        assert_eq!(fs::read(&out).unwrap().len(), 56, "{fault}");
    }
}

/// Catches a comparison without this call, without its bytes or what it must leave alone, or without
/// numbers that show each wrong reading.
#[test]
fn compare_fails_with_each_fault_of_dearest() {
    let of_call = format!("dearest{BY}entry ");
    let (any, byte) = ("dearest", "dearest: output byte ");
    for (fault, first) in [
        ("dearest", any),
        ("one_row_fewer", any),
        ("government", any),
        ("qualifying", any),
        ("nearer_band", any),
        ("coupon_300", any),
        ("one_more", any),
        ("one_less", any),
        ("half_short", any),
        ("without_specific", "dearest: the book costs "),
        ("without_general", "dearest: the book costs "),
        ("commodity_rate", "dearest: the book costs "),
        ("currencies", byte),
        ("full_refused", any),
        ("largest_refused", any),
        ("zero_taken", any),
        ("more_taken", any),
        ("dear_twelve_first", &of_call),
        ("dear_twelve_late", &of_call),
        ("dear_total_kept", &of_call),
        ("dear_length_kept", &of_call),
        ("dear_row_told", &of_call),
        ("dear_twelve_writes", byte),
        ("dear_cleared", byte),
    ] {
        let told = told_within("1000", "dearest", fault);
        assert!(told.starts_with(first), "{fault}: {told}");
    }
}
