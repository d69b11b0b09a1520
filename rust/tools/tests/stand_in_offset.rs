//! The command over a library that offsets wrongly, which it must notice.

mod common;
mod stand_in_library;

use common::{packed, temporary};
use stand_in_library::{fails, run, told_within, BY};
use std::fs;

/// Wrong books of the sample, which should lose two pairs, and what is told of them.
const WRONG: [(&str, &str); 6] = [
    (
        "sixteen_points",
        "offset, interest row 7 is by the library interest row: group 7, kind qualifying, days 900, \
         coupon 800, issue 0, long 60, short 0, by the book interest row: group 7, kind government, \
         days 2,000, coupon 800, issue 0, long 50, short 0; 2 pairs offset by the book",
    ),
    (
        "kind_2_too",
        "interest has 11 rows offset, the library's book 9; 2 pairs offset by the book",
    ),
    ("eighth_day", "offset, interest row 3 is by the library "),
    ("day_31", "offset, interest row 5 is by the library "),
    ("farther_leg", "offset, interest row 1 is by the library "),
    ("offset", "the library's offset book is no book"),
];

/// Catches a book that is written without a look at it, and an old file that is lost.
#[test]
fn offset_fails_with_a_wrong_book() {
    let (book, out) = (
        packed("offsetting", "stand-in"),
        temporary("stand-in.offset"),
    );
    fs::write(&out, "old").unwrap();
    for (fault, why) in WRONG {
        let error = fails(fault, &["offset", &book, &out]);
        let told = format!("offsetting.book: {why}");
        assert!(error.contains(&told), "{fault}: {error}");
        assert_eq!(fs::read(&out).unwrap(), b"old", "{fault}");
    }
    let right = run("none", &["offset", &book, &out, "--pairs"]);
    assert_eq!(right.stdout, b"pairs 2, which leave 11 of 15 rows\n");
    assert_eq!(fs::read(&out).unwrap().len(), 8 + 11 * 16);
}

/// Catches a comparison without this call, without its bytes or what it must leave alone, or without
/// books that show each wrong reading.
#[test]
fn compare_fails_with_each_fault_of_offsetting() {
    let of_call = format!("offset{BY}entry ");
    for (fault, first) in [
        ("offset", &of_call[..]),
        ("last_leg", "offset: output byte "),
        ("offered_again", &of_call),
        ("farther_leg", &of_call),
        ("day_under_30", &of_call),
        ("eighth_day", &of_call),
        ("day_31", &of_call),
        ("sixteen_points", &of_call),
        ("any_amount", &of_call),
        ("same_side", &of_call),
        ("kind_2_too", "offsetting: rows that are no legs "),
        ("kind_3_too", "offsetting: rows that are no legs "),
        ("across_currencies", &of_call),
        (
            "one_issue",
            "offsetting: rows 0 and 1 of the written book fit",
        ),
        ("others_moved", "offset: output byte "),
        ("twelve_late", &of_call),
        ("twelve_early", &of_call),
        ("length_told", &of_call),
        ("rest_cleared", "offset: output byte "),
        ("twelve_writes", "offset: output byte "),
    ] {
        let told = told_within("1000", "offset", fault);
        assert!(told.starts_with(first), "{fault}: {told}");
    }
}
