//! `offset` as a user meets it.

mod common;

use common::{book, fails, packed, prints, run, sample, temporary, unpacked};
use std::fs;

/// The lines that are left of a book of swap legs, without the header.
fn left(book: &str) -> Vec<String> {
    let out = format!("{book}.offset");
    assert_eq!(prints(&["offset", book, &out]), "");
    unpacked(&out)
}

/// Catches another leg than the first that fits, a limit that is one off, and other rows that do not
/// stay.
#[test]
fn the_sample_is_offset_as_its_readme_says() {
    let expected = fs::read_to_string(sample("offset")).unwrap();
    let lines = left(&packed("offsetting", "sample"));
    let expected = expected.lines().skip(1);
    assert!(expected.eq(lines.iter().map(String::as_str)));
}

/// The three legs of docs/METHOD.md in both orders: another one is left, and the charge rises or
/// falls.
#[test]
fn the_order_matters_and_the_charge_may_rise() {
    let legs = [
        "interest,7,government,360,800,0,100,0",
        "interest,7,government,367,800,0,0,100",
        "interest,7,government,370,800,0,100,0",
    ];
    let turned = [legs[2], legs[1], legs[0]];
    let total = |book: &str| {
        let report = prints(&["report", book]);
        let last = report.split_whitespace().last().unwrap();
        last.to_string()
    };
    for (name, legs, stays, after) in [
        ("in-order", legs, legs[2], "1,250.000"),
        ("turned", turned, legs[0], "700.000"),
    ] {
        let book = book(name, &legs);
        assert_eq!(total(&book), "825.000");
        assert_eq!(left(&book), [stays]);
        assert_eq!(total(&format!("{book}.offset")), after, "{name}");
    }
}

/// Nothing may be left, and what is left stays as it is, also through standard input and output.
#[test]
fn nothing_may_be_left() {
    let pair = [
        "interest,7,government,361,800,3,5,0",
        "interest,7,government,391,815,4,0,5",
    ];
    let none = book("no-legs", &pair);
    assert_eq!(left(&none), [""; 0]);
    assert_eq!(fs::read(format!("{none}.offset")).unwrap(), [0; 8]);
    assert_eq!(left(&packed("empty", "offset")), [""; 0]);
    let once = packed("offset", "again");
    assert_eq!(
        run(&["offset", &once, "-"]).stdout,
        fs::read(&once).unwrap()
    );
}

/// Catches pairs that are counted wrongly, printed without being asked for, or mixed with the book.
#[test]
fn pairs_are_printed_when_asked_for() {
    let out = temporary("pairs.offset");
    for (name, line) in [
        ("offsetting", "pairs 2, which leave 11 of 15 rows\n"),
        ("offset", "pairs 0, which leave 11 of 11 rows\n"),
        ("empty", "pairs 0, which leave 0 of 0 rows\n"),
    ] {
        let book = packed(name, "pairs");
        assert_eq!(prints(&["offset", &book, &out, "--pairs"]), line);
        assert_eq!(prints(&["offset", "--pairs", &book, &out]), line);
    }
    let legs: Vec<String> = (0..4_000)
        .map(|at| format!("interest,7,government,900,800,0,{},{}", at % 2, 1 - at % 2))
        .collect();
    let legs: Vec<&str> = legs.iter().map(String::as_str).collect();
    let many = book("many-legs", &legs[1..]);
    let line = "pairs 1,999, which leave 1 of 3,999 rows\n";
    assert_eq!(prints(&["offset", &many, &out, "--pairs"]), line);
    for to in ["-", "/dev/stdout"] {
        let told = fails(2, &["offset", &many, to, "--pairs"]);
        let why = "offset: --pairs prints on standard output, where the written book goes";
        assert!(told.contains(why), "{told}");
        assert!(run(&["offset", &many, to, "--pairs"]).stdout.is_empty());
    }
}

/// Catches another refusal than the report's, and an output that is written, or lost, all the same.
#[test]
fn refusals_are_told_as_by_report() {
    let (bad, out) = (temporary("bad-offset.book"), temporary("bad-offset.offset"));
    fs::write(&out, "old").unwrap();
    let mut bytes = fs::read(packed("offsetting", "bad")).unwrap();
    bytes[8 + 4 * 16 + 1] = 0;
    for (length, number) in [(bytes.len(), "5 row 4"), (40, "3"), (7, "1")] {
        fs::write(&bad, &bytes[..length]).unwrap();
        let error = fails(1, &["offset", &bad, &out]);
        assert!(error.contains(&format!(": refused {number}: ")), "{error}");
        assert_eq!(error, fails(1, &["report", &bad]));
        assert_eq!(fails(1, &["offset", &bad, &out, "--pairs"]), error);
    }
    assert_eq!(fs::read(&out).unwrap(), b"old");
}

#[test]
fn wrong_command_lines_and_files() {
    assert!(fails(2, &["offset"]).contains("offset: BOOK and OUT are missing"));
    let book = packed("offsetting", "words");
    assert!(fails(2, &["offset", &book]).contains("offset: OUT is missing"));
    assert!(fails(2, &["offset", &book, &book]).contains("are one file"));
    for option in ["--table", "--currency", "--comparisons", "--pair"] {
        let told = fails(2, &["offset", &book, "x", option]);
        assert!(told.contains(&format!("no option '{option}'")), "{told}");
    }
    let out = temporary("words.offset");
    assert!(fails(2, &["offset", &temporary("no-book"), &out]).contains("no-book: "));
    let help = prints(&["offset", "--help"]);
    assert!(help.starts_with("market-risk offset BOOK OUT [--pairs] [--csv]\n"));
}
