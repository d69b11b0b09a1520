//! The command over a library that shows refusals wrongly, which it must notice.

mod common;
mod stand_in_library;

use common::{packed, temporary};
use stand_in_library::{fails, run, told_within, BY};
use std::fs;

/// A file with these bytes.
fn file(name: &str, bytes: &[u8]) -> String {
    let path = temporary(&format!("stand-in-{name}.book"));
    fs::write(&path, bytes).unwrap();
    path
}

/// Files that are refused, and one that is accepted: the sample `mixed`, which has 4 rows of interest
/// and 3 of equity, with a bad row of each; without its last byte; eight zeros and one more; too
/// many rows; seven bytes; a note with a fixing of 361 days.
fn files() -> [(&'static str, String); 7] {
    let mixed = fs::read(packed("mixed", "stand-in-shortest")).unwrap();
    let note = fs::read(packed("floating", "stand-in-shortest")).unwrap();
    let (mut rows, mut over, mut late) = (mixed.clone(), mixed.clone(), note);
    (rows[8 + 5 * 16 + 2], rows[8 + 6 * 16]) = (1, 32);
    over[..2].copy_from_slice(&[0xa1, 0x0f]);
    (late[8 + 16 + 2], late[8 + 16 + 3]) = (0x69, 1);
    [
        ("rows", file("rows", &rows)),
        ("cut", file("cut", &mixed[..mixed.len() - 1])),
        ("zeros", file("zeros", &[0; 9])),
        ("over", file("over", &over)),
        ("seven", file("seven", &[7; 7])),
        ("note", file("note", &late)),
        ("good", file("good", &mixed)),
    ]
}

/// Wrong files, and what is told of them.
const WRONG: [(&str, &str, &str); 13] = [
    (
        "rows",
        "shortest",
        "the library's file has 0 bytes, by the book 24",
    ),
    (
        "rows",
        "first_class",
        "byte 0 of the library's file is 1, by the book 0",
    ),
    (
        "rows",
        "class_count_kept",
        "byte 2 of the library's file is 3, by the book 1",
    ),
    (
        "rows",
        "row_in_class",
        "byte 8 of the library's file is 1, by the book ",
    ),
    (
        "rows",
        "last_row",
        "byte 8 of the library's file is 32, by the book ",
    ),
    (
        "cut",
        "one_always",
        "byte 0 of the library's file is 1, by the book 4",
    ),
    (
        "zeros",
        "zeros_kept",
        "byte 0 of the library's file is 0, by the book 1",
    ),
    (
        "over",
        "rows_kept",
        "refused 12: output shorter than the result",
    ),
    (
        "seven",
        "mark_of_one",
        "the library shows nothing and calls it accepted, by the book it is refused with 1",
    ),
    ("seven", "own_refusal", "refused 1: fewer than 8 bytes"),
    (
        "good",
        "mark_missing",
        "the library shows a refusal in 0 bytes, by the book it is accepted",
    ),
    (
        "note",
        "six_for_fifteen",
        "by the book it is refused with 15 for interest row 1, the library tells refused 6 row 1: ",
    ),
    (
        "note",
        "charge",
        "the library's file should be refused with 15 in row 0 and is accepted",
    ),
];

/// Catches a file that is written without a look at it, and an old one that is lost.
#[test]
fn shortest_fails_with_a_wrong_file() {
    let out = temporary("stand-in.shown");
    let files = files();
    let path = |name: &str| &files.iter().find(|file| file.0 == name).unwrap().1;
    for (name, fault, why) in WRONG {
        fs::write(&out, "old").unwrap();
        let error = fails(fault, &["shortest", path(name), "-o", &out]);
        let told = format!("{name}.book: {why}");
        assert!(error.contains(&told), "{fault}: {error}");
        assert_eq!(fs::read(&out).unwrap(), b"old", "{fault}");
    }
    for (name, length) in [
        ("rows", 24),
        ("cut", 8),
        ("zeros", 8),
        ("over", 8),
        ("seven", 0),
    ] {
        let right = run("none", &["shortest", path(name), "-o", &out]);
        assert!(right.status.success(), "{name}");
        assert_eq!(fs::read(&out).unwrap().len(), length, "{name}");
    }
}

/// Catches a comparison without this call, without its bytes or what it must leave alone, or without
/// files that show each wrong reading.
#[test]
fn compare_fails_with_each_fault_of_shortest() {
    let of_call = format!("shortest{BY}entry ");
    let (claim, byte) = (
        "shortest: the file of a book refused with ",
        "shortest: output byte ",
    );
    for (fault, first) in [
        ("shortest", &of_call[..]),
        ("first_class", claim),
        ("class_count_kept", claim),
        ("row_in_class", claim),
        ("last_row", claim),
        ("zeros_kept", claim),
        ("one_always", byte),
        (
            "rows_kept",
            "shortest: 8 bytes are refused with 2 too, not only ",
        ),
        ("mark_missing", &of_call),
        ("mark_of_one", &of_call),
        ("twelve_of_one", &of_call),
        ("twelve_of_accepted", &of_call),
        ("twelve_at_equal", &of_call),
        ("shown_twelve_late", &of_call),
        ("own_refusal", &of_call),
        ("row_told", &of_call),
        ("shown_length_told", &of_call),
        ("shown_twelve_writes", byte),
        ("shown_cleared", byte),
    ] {
        let told = told_within("1000", "shortest", fault);
        assert!(told.starts_with(first), "{fault}: {told}");
    }
}
