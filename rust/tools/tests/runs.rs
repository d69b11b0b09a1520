//! The longer runs: comparison, stored calls, speed.

mod common;

use common::{fails, prints, temporary};
use std::fs;

#[test]
fn the_library_and_the_second_calculation_agree() {
    let text = prints(&["compare", "--seed", "9", "--count", "400"]);
    assert!(text.starts_with("seed 9: 400 pairs equal in "), "{text}");
}

#[test]
fn vectors_are_current_until_they_are_changed() {
    let folder = temporary("vectors");
    fs::create_dir_all(&folder).unwrap();
    prints(&["vectors", "--seed", "3", "--write", &folder]);
    prints(&["vectors", "--seed", "3", "--check", &folder]);
    assert!(fails(1, &["vectors", "--check", &folder]).contains("is not current"));
    fs::write(format!("{folder}/stdout"), "check 0 0 0\n").unwrap();
    let error = fails(1, &["vectors", "--seed", "3", "--check", &folder]);
    assert!(error.contains("stdout is not current"));
}

/// The nanoseconds that stand behind a name.
fn nanoseconds(line: &str, name: &str) -> f64 {
    let (_, figure) = line.split_once(name).unwrap();
    let (figure, _) = figure.split_once(" ns").unwrap();
    figure.parse().unwrap()
}

#[test]
fn a_short_benchmark_prints_every_line() {
    let text = prints(&["bench", "--rounds", "1"]);
    let tables: Vec<&str> = text.split("\n\n").skip(1).collect();
    let calls = [
        ("check", 9),
        // Calls that take a table have a line more; the small bank and the calls that write from one
        // book have their own lines.
        ("charge", 10),
        ("interest ladder", 10),
        ("commodity ladder", 9),
        ("small bank", 7),
        ("join", 9),
        // The last of its lines is the time of a comparison.
        ("net", 9),
        ("offset", 6),
        ("net and offset", 4),
        ("shortest", 3),
        ("dearest", 3),
        ("options", 3),
        ("least trade", 7),
    ];
    assert_eq!(tables.len(), calls.len());
    for (table, (call, lines)) in tables.iter().zip(calls) {
        assert!(table.starts_with(&format!("{call} ")), "{table}");
        assert!(table.contains("proved / Rust"), "{table}");
        assert_eq!(table.lines().count(), 1 + lines, "{table}");
    }
    let last = tables[6].lines().last().unwrap();
    let beginning = "each of 7,998,000 comparisons, 4,000 rows of as many issues: proved ";
    assert!(last.starts_with(beginning), "{last}");
    // A comparison takes more than no time and less than a microsecond on any machine.
    let [proved, rust] = ["proved ", "Rust "].map(|name| nanoseconds(last, name));
    assert!(0.0 < proved && proved < 1_000.0, "{last}");
    assert!(0.0 < rust && rust < 1_000.0, "{last}");
    assert_eq!(text.matches("comparisons").count(), 1, "{text}");
}
