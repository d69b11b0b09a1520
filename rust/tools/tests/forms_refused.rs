//! What is refused of `report` and `ladder`, in each form.

mod common;
mod figures;

use common::{fails, packed, prints, run, sample, temporary};
use figures::json;
use std::fs;

/// The keyed book with a row of which both amounts are zero, in a file whose name has odd signs.
fn refused_book() -> String {
    let bad = fs::read_to_string(sample("keyed")).unwrap();
    let bad = bad.replace(",14,0", ",0,0");
    let (csv, book) = (temporary("zeros.csv"), temporary("odd \"name\\\n é.book"));
    fs::write(&csv, bad).unwrap();
    prints(&["pack", &csv, &book, "--unchecked"]);
    book
}

/// Catches a refusal that is told on one side alone, without its row, or with another exit status.
#[test]
fn a_refused_book_is_told_in_each_form() {
    let book = refused_book();
    for words in [
        &["report", &book][..],
        &["ladder", &book],
        &["ladder", &book, "--currencies"],
        &["ladder", &book, "--commodities"],
        &["ladder", &book, "--currency", "7"],
        &["ladder", &book, "--commodity", "7"],
    ] {
        let plain = fails(1, words);
        assert!(plain.contains("refused 8 row 2: "), "{plain}");
        assert_eq!(fails(1, &[words, &["--csv"]].concat()), plain);
        let output = run(&[words, &["--json"]].concat());
        assert_eq!(output.status.code(), Some(1));
        assert_eq!(String::from_utf8(output.stderr).unwrap(), plain);
        let read = json(&String::from_utf8(output.stdout).unwrap()).unwrap();
        let refused = read.get("refused");
        assert_eq!(refused.names(), ["number", "row", "reason"]);
        assert_eq!(refused.get("number").number(), 8);
        assert_eq!(refused.get("row").number(), 2);
        assert!(plain.contains(refused.get("reason").text()), "{plain}");
    }
}

/// Catches a group that is told with a row.
#[test]
fn a_refused_group_has_no_row() {
    let output = run(&[
        "ladder",
        &packed("keyed", "no-row"),
        "--currency",
        "32",
        "--json",
    ]);
    assert_eq!(output.status.code(), Some(1));
    let read = json(&String::from_utf8(output.stdout).unwrap()).unwrap();
    assert_eq!(read.get("refused").names(), ["number", "reason"]);
    assert_eq!(read.get("refused").get("number").number(), 10);
}

/// Catches a refused text that is told without its line, or with another.
#[test]
fn a_refused_text_has_its_line() {
    let text = temporary("ladders-refused.csv");
    let header = "class,group,kind,days,coupon,issue,long,short";
    fs::write(&text, format!("{header}\n\nfx,32,none,0,0,0,5,0\n")).unwrap();
    for command in ["report", "ladder"] {
        let output = run(&[command, &text, "--json"]);
        assert_eq!(output.status.code(), Some(1));
        let read = json(&String::from_utf8(output.stdout).unwrap()).unwrap();
        let refused = read.get("refused");
        assert_eq!(refused.names(), ["number", "row", "line", "reason"]);
        assert_eq!(refused.get("line").number(), 3);
    }
}
