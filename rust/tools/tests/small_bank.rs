//! `small-bank` as a user meets it.

mod common;

use common::{fails, packed, prints, run, sample, temporary};
use std::fs;

/// Catches a report in the place of the small bank's charges, and the other way round.
#[test]
fn commodities_cost_otherwise_than_in_the_report() {
    let book = packed("small-bank", "charged");
    let figure = |command: &str, name: &str| {
        let text = prints(&[command, &book]);
        let line = text.lines().find(|line| line.starts_with(name)).unwrap();
        line.split_whitespace().last().unwrap().to_string()
    };
    for (name, small_bank, report) in [
        ("foreign exchange", "79,200.000", "79,200.000"),
        ("commodity", "57,600.000", "52,800.000"),
        ("total", "136,800.000", "132,000.000"),
    ] {
        assert_eq!(figure("small-bank", name), small_bank);
        assert_eq!(figure("report", name), report);
    }
}

/// The rows in another order, and with long and short exchanged, cost the same.
#[test]
fn order_and_sides_do_not_matter() {
    let text = fs::read_to_string(sample("small-bank")).unwrap();
    let (header, rows) = text.split_once('\n').unwrap();
    let mirrored = |row: &str| {
        let (rest, short) = row.rsplit_once(',').unwrap();
        let (rest, long) = rest.rsplit_once(',').unwrap();
        format!("{rest},{short},{long}")
    };
    let turned: Vec<String> = rows.lines().rev().map(mirrored).collect();
    let (csv, book) = (temporary("turned.csv"), temporary("turned.book"));
    fs::write(&csv, format!("{header}\n{}\n", turned.join("\n"))).unwrap();
    prints(&["pack", &csv, &book]);
    let charges = |book: &str| {
        let text = prints(&["small-bank", book]);
        text.lines().take(3).collect::<Vec<_>>().join("\n")
    };
    let right = packed("small-bank", "turned");
    assert_eq!(charges(&book), charges(&right));
}

/// Catches a refusal without its words, its counts, or its exit status.
#[test]
fn a_book_with_other_classes_is_refused_in_words() {
    let why = "refused 20: interest or equity rows in a small bank's book";
    for (name, interest, equity) in [("mixed", 4, 3), ("equity", 0, 2), ("swap", 6, 0)] {
        let error = fails(1, &["small-bank", &packed(name, "twenty")]);
        let told = format!(
            "{name}.book: {why}\nthe file counts {interest} interest and {equity} equity rows\n"
        );
        assert!(error.ends_with(&told), "{error}");
    }
}

/// Catches 20 out of its order, and a bad row that is told without its fields.
#[test]
fn other_refusals_are_told_as_by_report() {
    let (bytes, bad) = (
        fs::read(packed("mixed", "order")).unwrap(),
        temporary("bad.book"),
    );
    fs::write(&bad, &bytes[..bytes.len() - 1]).unwrap();
    assert!(fails(1, &["small-bank", &bad]).contains("refused 3: "));
    fs::write(&bad, &bytes[..7]).unwrap();
    assert!(fails(1, &["small-bank", &bad]).contains("refused 1: "));
    let mut bytes = fs::read(packed("small-bank", "order")).unwrap();
    let last = bytes.len() - 16;
    bytes[last + 2..last + 4].copy_from_slice(&36_001u16.to_le_bytes());
    fs::write(&bad, &bytes).unwrap();
    let told = fails(1, &["small-bank", &bad]);
    let row = "bad.book: refused 6 row 10: days out of their range\ncommodity row: group 0, ";
    assert!(told.contains(row), "{told}");
    assert_eq!(told, fails(1, &["report", &bad]));
}

#[test]
fn wrong_command_lines_and_files() {
    assert!(fails(2, &["small-bank"]).contains("small-bank: BOOK is missing"));
    let book = packed("small-bank", "words");
    assert!(fails(2, &["small-bank", &book, &book]).contains("one file too many"));
    for option in ["--table", "--currencies", "--commodity"] {
        let told = fails(2, &["small-bank", &book, option, "4"]);
        assert!(told.contains(&format!("no option '{option}'")), "{told}");
    }
    assert!(fails(2, &["small-bank", &temporary("none")]).contains("none: "));
    assert!(run(&["small-bank", "--help"]).status.success());
}
