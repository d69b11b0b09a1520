//! `net --offset` as a user meets it.

mod common;

use common::{book, fails, packed, prints, run, temporary, unpacked};
use std::fs;

/// The lines that are left of a book, without the header.
fn left(book: &str) -> Vec<String> {
    let out = format!("{book}.both");
    assert_eq!(prints(&["net", "--offset", book, &out]), "");
    unpacked(&out)
}

/// The total of a book.
fn total(book: &str) -> String {
    let report = prints(&["report", book]);
    report.split_whitespace().last().unwrap().to_string()
}

/// The book that two commands write one after the other.
fn in_turn(first: &str, then: &str, book: &str) -> String {
    let [once, twice] = [first, then].map(|command| format!("{book}.{first}.{command}"));
    prints(&[first, book, &once]);
    prints(&[then, &once, &twice]);
    twice
}

/// The two samples of docs/ORDER.md: what is left, and the totals as they are, issues first,
/// offsetting first.
#[test]
fn the_two_samples_and_their_totals() {
    let shared = packed("order-shared", "both");
    let rows = [
        "interest,7,government,900,800,0,100,0",
        "interest,7,government,910,800,7,0,60",
    ];
    assert_eq!(left(&shared), rows);
    let together = packed("order-together", "both");
    assert_eq!(left(&together), [""; 0]);
    for (book, totals) in [
        (shared, ["875.000", "805.000", "700.000"]),
        (together, ["175.000", "0.000", "175.000"]),
    ] {
        let (first, turned) = (
            in_turn("net", "offset", &book),
            in_turn("offset", "net", &book),
        );
        let both = format!("{book}.both");
        assert_eq!([&book, &both, &turned].map(|book| total(book)), totals);
        assert_eq!(fs::read(&first).unwrap(), fs::read(&both).unwrap());
    }
}

/// Catches pairs of other rows, comparisons of others, and lines that are printed unasked or in
/// another order.
#[test]
fn pairs_and_comparisons_are_printed_when_asked_for() {
    let out = temporary("lines.both");
    let pairs = "pairs 1, which leave 0 of 2 netted rows\n";
    let comparisons = "comparisons 1 of at most 3\n";
    let book = packed("order-together", "lines");
    let lines = |words: &[&str]| prints(&[&["net", &book, &out, "--offset"], words].concat());
    assert_eq!(lines(&["--pairs"]), pairs);
    assert_eq!(lines(&["--comparisons"]), comparisons);
    let both = format!("{comparisons}{pairs}");
    assert_eq!(lines(&["--comparisons", "--pairs"]), both);
    assert_eq!(lines(&["--pairs", "--comparisons"]), both);
    let book = packed("order-shared", "lines");
    let none = prints(&["net", "--offset", "--pairs", &book, &out]);
    assert_eq!(none, "pairs 0, which leave 2 of 2 netted rows\n");
    for (name, line) in [
        ("offsetting", "pairs 2, which leave 11 of 15 netted rows\n"),
        ("netting", "pairs 1, which leave 2 of 4 netted rows\n"),
        ("empty", "pairs 0, which leave 0 of 0 netted rows\n"),
    ] {
        let book = packed(name, "lines");
        assert_eq!(prints(&["net", "--offset", &book, &out, "--pairs"]), line);
    }
}

/// Catches a line behind the bytes of a book on standard output, and pairs without offsetting.
#[test]
fn lines_are_not_mixed_with_a_book() {
    let book = packed("order-together", "mixed");
    for to in ["-", "/dev/stdout"] {
        for option in ["--pairs", "--comparisons"] {
            let words = ["net", "--offset", &book, to, option];
            let why =
                format!("net: {option} prints on standard output, where the written book goes");
            assert!(fails(2, &words).contains(&why), "{option}");
        }
    }
    let out = temporary("mixed.both");
    fs::write(&out, "old").unwrap();
    let told = fails(2, &["net", &book, &out, "--pairs"]);
    assert!(
        told.contains("net: --pairs is of --offset, which is not given"),
        "{told}"
    );
    assert_eq!(fs::read(&out).unwrap(), b"old");
    assert_eq!(run(&["net", "--offset", &book, "-"]).stdout, [0; 8]);
}

/// Catches an issue that is told of only where offsetting leaves its rows, another refusal than
/// netting's, and an output that is written, or lost, all the same.
#[test]
fn refusals_are_those_of_netting() {
    let out = temporary("refused.both");
    fs::write(&out, "old").unwrap();
    let unlike = [
        "interest,7,government,900,800,7,5,0",
        "interest,7,government,910,800,0,0,5",
        "interest,7,government,905,800,7,4,0",
    ];
    let over = [
        "interest,7,government,900,800,7,1000000000,0",
        "interest,7,government,900,800,7,1000000000,0",
        "interest,7,government,910,800,0,0,1000000000",
    ];
    for (name, rows, number) in [
        ("both-unlike", unlike, "13 row 2"),
        ("both-over", over, "14 row 0"),
    ] {
        let book = book(name, &rows);
        let error = fails(1, &["net", "--offset", &book, &out]);
        assert!(error.contains(&format!(": refused {number}: ")), "{error}");
        assert_eq!(error, fails(1, &["net", &book, &out]));
        // The other order does not see it.
        in_turn("offset", "net", &book);
    }
    assert_eq!(fs::read(&out).unwrap(), b"old");
}

#[test]
fn help_tells_of_it() {
    let help = prints(&["net", "--help"]);
    assert!(help.contains("\n  --offset   "), "{help}");
    assert!(help.contains("\n  --pairs   "), "{help}");
}
