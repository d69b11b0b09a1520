//! The command over a library that nets and offsets wrongly in one call, which it must notice.

mod common;
mod stand_in_library;

use common::{packed, temporary};
use stand_in_library::{fails, run, told_within, BY};
use std::fs;

/// Wrong books of the two samples, and what is told of them.
const WRONG: [(&str, &str, &str); 6] = [
    (
        "order-shared",
        "offset_first",
        "offset, interest row 0 is by the library interest row: group 7, kind government, days 910, \
         coupon 800, issue 7, long 40, short 0, by the book interest row: group 7, kind government, \
         days 900, coupon 800, issue 0, long 100, short 0; 0 pairs offset by the book",
    ),
    (
        "order-shared",
        "not_netted",
        "offset, interest row 0 is by the library ",
    ),
    (
        "order-together",
        "offset_first",
        "interest has 0 rows offset, the library's book 2; 1 pair offsets by the book",
    ),
    (
        "order-together",
        "not_offset",
        "interest has 0 rows offset, the library's book 2; 1 pair offsets by the book",
    ),
    (
        "order-together",
        "count_none",
        "the library made 0 comparisons, by the book there are 1",
    ),
    (
        "order-together",
        "net_and_offset",
        "the library's offset book is no book",
    ),
];

/// Catches a book that is written without a look at it, and an old file that is lost.
#[test]
fn net_fails_with_a_wrong_book() {
    let out = temporary("stand-in.both");
    fs::write(&out, "old").unwrap();
    for (sample, fault, why) in WRONG {
        let book = packed(sample, "stand-in-both");
        let error = fails(fault, &["net", "--offset", &book, &out]);
        assert!(
            error.contains(&format!("{sample}.book: {why}")),
            "{fault}: {error}"
        );
        assert_eq!(fs::read(&out).unwrap(), b"old", "{fault}");
    }
    let book = packed("order-together", "stand-in-both");
    let right = run("none", &["net", "--offset", &book, &out, "--pairs"]);
    assert_eq!(right.stdout, b"pairs 1, which leave 0 of 2 netted rows\n");
    assert_eq!(fs::read(&out).unwrap(), [0; 8]);
}

/// Catches a comparison without this call, without its bytes or what it must leave alone, or without
/// books that show each wrong reading.
#[test]
fn compare_fails_with_each_fault_of_both() {
    let of_call = format!("net and offset{BY}entry ");
    for (fault, first) in [
        ("net_and_offset", &of_call[..]),
        ("offset_first", &of_call),
        ("not_netted", &of_call),
        (
            "not_offset",
            "netting and offsetting: rows 0 and 1 of the written book fit",
        ),
        ("issues_not_told", &of_call),
        ("fourteen_skipped", &of_call),
        ("count_none", &of_call),
        ("twelve_of_netted", &of_call),
        ("both_twelve_late", &of_call),
        ("both_twelve_first", &of_call),
        ("both_length_told", &of_call),
        ("netted_left", "net and offset: output byte "),
        ("both_twelve_writes", "net and offset: output byte "),
    ] {
        let told = told_within("1000", "net", fault);
        assert!(told.starts_with(first), "{fault}: {told}");
    }
}
