//! The command over a library that nets wrongly, refuses issues in the wrong way or counts
//! comparisons wrongly, which it must notice.

mod common;
mod stand_in_library;

use common::{packed, temporary};
use stand_in_library::{fails, run, told_of, told_within, BY};
use std::fs;

/// Wrong netted books of the sample, and what is told of them.
const WRONG: [(&str, &str); 5] = [
    (
        "last_place",
        "netted, interest row 0 is by the library interest row: group 7, kind government, days 270, \
         coupon 800, issue 0, long 30, short 0, by the book interest row: group 7, kind qualifying, \
         days 1,080, coupon 800, issue 5, long 60, short 0",
    ),
    (
        "zero_an_issue",
        "interest has 3 rows netted, the library's book 1",
    ),
    (
        "unit_too_much",
        "netted, interest row 0 is by the library interest row: group 7, kind qualifying, days \
         1,080, coupon 800, issue 5, long 61, short 0, by the book interest row: group 7, kind \
         qualifying, days 1,080, coupon 800, issue 5, long 60, short 0",
    ),
    ("last_left_out", "interest has 3 rows netted, the library's book 2"),
    ("net", "the library's netted book is no book"),
];

/// Catches a netted book that is written without a look at it, and an old file that is lost.
#[test]
fn net_fails_with_a_wrong_netted_book() {
    let (book, out) = (packed("netting", "stand-in"), temporary("stand-in.netted"));
    fs::write(&out, "old").unwrap();
    for (fault, why) in WRONG {
        let error = fails(fault, &["net", &book, &out]);
        assert!(
            error.contains(&format!("netting.book: {why}")),
            "{fault}: {error}"
        );
        assert_eq!(fs::read(&out).unwrap(), b"old", "{fault}");
    }
    assert!(run("none", &["net", &book, &out]).status.success());
    assert_eq!(fs::read(&out).unwrap().len(), 8 + 4 * 16);
}

/// Catches a comparison without this call, without its bytes, without what it must leave alone,
/// or without books that show each wrong order.
#[test]
fn compare_fails_with_each_fault_of_netting() {
    for fault in ["last_place", "past_cleared", "refused_writes"] {
        let told = told_of("net", fault);
        assert!(told.starts_with("net: output byte "), "{fault}: {told}");
    }
    // Without room no byte differs, and what is left is a claim that does not hold.
    for fault in ["unit_too_much", "last_left_out"] {
        let told = told_of("net", fault);
        assert!(told.starts_with("netting: "), "{fault}: {told}");
    }
    for (fault, first) in [
        ("net", " is "),
        ("zero_an_issue", "entry "),
        ("running_sum", "entry 0 is 14 and "),
        ("fourteen_first", "entry 0 is 14 and 13"),
        ("thirteen_at_first", "entry 1 is 0 and 1"),
        ("twelve_first", "entry 0 is 12 and 1"),
        ("length_kept", "entry 3 is 8 and 0"),
    ] {
        let told = told_within("2000", "net", fault);
        assert!(told.starts_with(&format!("net{BY}")), "{fault}: {told}");
        assert!(told.contains(first), "{fault}: {told}");
    }
}

/// Catches a count that is printed without a look at it, or that fails though it is right: the
/// sample takes 5.
#[test]
fn net_fails_with_a_wrong_count() {
    let (book, out) = (packed("netting", "counted"), temporary("counted.netted"));
    fs::write(&out, "old").unwrap();
    for (fault, count) in [
        ("none_compared", 0),
        ("one_more_compared", 6),
        ("equal_not_counted", 2),
        ("every_two_compared", 7),
    ] {
        let why = format!("the library made {count} comparisons, by the book there are 5\n");
        for words in [
            &["net", &book, &out][..],
            &["net", &book, &out, "--comparisons"],
        ] {
            let error = fails(fault, words);
            let told = format!("netting.book: {why}");
            assert!(error.ends_with(&told), "{fault}: {error}");
            assert_eq!(fs::read(&out).unwrap(), b"old", "{fault}");
        }
    }
    let right = run("none", &["net", &book, &out, "--comparisons"]);
    assert_eq!(right.stdout, b"comparisons 5 of at most 28\n");
}

/// Catches a comparison without this figure, or with it in some books alone; the last is told of
/// one row, by the bound, where there is no room.
#[test]
fn compare_fails_with_each_wrong_count() {
    for (fault, wrong, right) in [
        ("none_compared", 0, 1),
        ("equal_not_counted", 0, 1),
        ("every_two_compared", 3, 2),
        ("classes_compared", 1, 0),
        ("count_kept", 1, 0),
    ] {
        let told = told_within("2000", "net", fault);
        let expected = format!("net{BY}entry 4 is {wrong} and {right}");
        assert_eq!(told, expected, "{fault}");
    }
    let told = told_of("net", "one_more_compared");
    assert!(told.starts_with("netting: book "), "{told}");
    assert!(told.ends_with(" comparisons, over 0"), "{told}");
}
