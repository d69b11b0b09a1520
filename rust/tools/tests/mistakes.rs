//! What somebody leaves out, types in another unit or hands over in the place of a book: refused with the
//! line, the column and what to write, and never charged too little.

mod common;

use books::csv::HEADER;
use books::options::csv::HEADER as OPTIONS;
use common::{fails, prints, run, sample, temporary};
use std::fs;
use std::sync::atomic::{AtomicUsize, Ordering};

/// A file of its own with this content.
fn file(name: &str, content: impl AsRef<[u8]>) -> String {
    static FILES: AtomicUsize = AtomicUsize::new(0);
    let number = FILES.fetch_add(1, Ordering::Relaxed);
    let path = temporary(&format!("mistakes-{number}-{name}"));
    fs::write(&path, content).unwrap();
    path
}

/// What is told of a line of a book, the second of its text, in lines without the file's name.
fn told(line: &str) -> Vec<String> {
    let path = file("book.csv", format!("{HEADER}\n{line}\n"));
    lines(&path, &fails(1, &["report", &path]))
}

/// The lines of an error about the second line of a file, each of which has its name.
fn lines(path: &str, error: &str) -> Vec<String> {
    let error = error.strip_prefix("market-risk: ").unwrap();
    let begin = format!("{path}: line 2: ");
    let own = |line: &str| line.strip_prefix(&begin).unwrap_or(line).to_string();
    error.lines().map(own).collect()
}

/// Catches a maturity that is left out and costs nothing, and a coupon that is taken for none.
#[test]
fn what_is_left_out_is_not_zero() {
    let days = "days is empty; write it in days: a month is 30, a year 360";
    let coupon = "coupon is empty; write it in basis points: 8% is 800; 0 where there is none";
    let line = "interest,7,government,7200,200,1,1000000,0";
    let total = prints(&["report", &file("whole.csv", format!("{HEADER}\n{line}\n"))]);
    assert!(total.ends_with("total              80,000,000.000\n"));
    assert_eq!(told("interest,7,government,,200,1,1000000,0"), [days]);
    assert_eq!(told("interest,7,government,7200,,1,1000000,0"), [coupon]);
    assert_eq!(told("interest,7,government,,,1,1000000,0"), [days, coupon]);
    let delivery = format!("{days}; 0 for stock");
    assert_eq!(told("commodity,7,none,,,,5,0"), [&delivery[..]]);
    let option = "commodity,4,sold call,none,25000,7210,170,84,2000,";
    let path = file("options.csv", format!("{OPTIONS}\n{option}\n"));
    for words in [&["options", &path][..], &["pack", "--options", &path, "x"]] {
        assert_eq!(lines(&path, &fails(1, words)), [&delivery[..]]);
    }
}

/// Catches advice that leads to another figure: 8 for 8%, a long for a short.
#[test]
fn advice_is_in_the_unit_of_the_column() {
    let interest = |days: &str, coupon: &str, long: &str| {
        told(&format!("interest,7,government,{days},{coupon},1,{long},0")).remove(0)
    };
    for (line, expected) in [
        (interest("270", "8%", "5"), "in basis points: 8% is 800"),
        (interest("270", "8.5", "5"), "in basis points: 8.5% is 850"),
        (interest("270", "8", "5"), "write 0008 if 0.08% is meant"),
        (interest("20y", "800", "5"), "in days: 20y is 7200"),
        (interest("270", "800", "-5"), "a long below zero is a short"),
        (
            interest("270", "800", "5m"),
            "of the reporting currency: a million is 1000",
        ),
    ] {
        assert!(line.ends_with(expected), "{line}");
    }
    let option = |delta: &str, volatility: &str| {
        let line = format!("fx,4,sold call,none,25000,{delta},170,84,{volatility},0");
        let path = file("units.csv", format!("{OPTIONS}\n{line}\n"));
        lines(&path, &fails(1, &["options", &path])).remove(0)
    };
    for (line, expected) in [
        (option("0.5", "2000"), "in ten-thousandths: 0.5 is 5000"),
        (option("50", "2000"), "write 0050 if 0.0050 is meant"),
        (option("5000", "20"), "write 0020 if 0.20% is meant"),
        (
            option("5000", "20%"),
            "in hundredths of a point: 20% is 2000",
        ),
    ] {
        assert!(line.ends_with(expected), "{line}");
    }
    let table = fs::read_to_string(sample("../tables/amendment-1996").trim_end_matches(".csv"));
    let table = table.unwrap().replace(" 20 40 ", " 0.2 40 ");
    let path = file("units.table", table);
    let line = fails(1, &["report", &sample("keyed"), "--table", &path]);
    assert!(line.contains("the weight of band 1 is '0.2': "), "{line}");
    assert!(line.ends_with("in basis points: 0.2% is 20\n"), "{line}");
}

/// Catches a row that a spreadsheet's error makes a comment.
#[test]
fn rows_that_begin_with_an_error_are_told() {
    for error in ["#REF!", "#N/A Invalid Security", "#n/a"] {
        let why = format!("a row begins with '{error}'; a comment has a blank behind its #");
        let line = format!("{error},7,government,7200,200,1,1000000,0");
        assert_eq!(told(&line), [why]);
    }
}

/// What is told on standard error beside figures.
fn noted(words: &[&str]) -> String {
    let output = run(words);
    assert!(output.status.success(), "{words:?}");
    String::from_utf8(output.stderr).unwrap()
}

/// Catches CSV text under another table without a word of it, and a word of document 01's own.
#[test]
fn figures_under_another_table_are_noted() {
    let table = file("zeros.table", [0; 36]);
    let own = sample("../tables/amendment-1996");
    let (keyed, own) = (sample("keyed"), own.trim_end_matches(".csv"));
    for command in ["report", "ladder"] {
        let note = noted(&[command, &keyed, "--csv", "--table", &table]);
        let told = format!("note: {table}: figures are under this table, not document 01's\n");
        assert!(note.ends_with(&told), "{note}");
        assert_eq!(noted(&[command, &keyed, "--csv"]), "");
        assert_eq!(noted(&[command, &keyed, "--csv", "--table", own]), "");
        // Text has its own lines of the table.
        assert_eq!(noted(&[command, &keyed, "--table", &table]), "");
    }
}

/// Catches a book without rows or with years for days that costs nothing without a word.
#[test]
fn books_that_cost_nothing_are_noted() {
    let path = file("no-options.csv", format!("{OPTIONS}\n# none\n"));
    let note = noted(&["options", &path]);
    assert!(note.ends_with("there are no options, and every charge is zero\n"));
    let none = file("none.csv", HEADER);
    let years = "interest,7,government,20,200,1,5,0\n";
    let years = file("years.csv", format!("{HEADER}\n{years}"));
    let rows = "there are no rows, and every charge is zero";
    for (path, words) in [(&none, rows), (&years, "a year is 360")] {
        for command in [&["report"][..], &["ladder"], &["html", "-o", "-"]] {
            let note = noted(&[command, &[path]].concat());
            let begin = format!("market-risk: note: {path}: ");
            assert!(note.starts_with(&begin) && note.contains(words), "{note}");
        }
    }
    assert!(noted(&["small-bank", &none]).contains(rows));
}

/// Catches a limit that is told without the number that broke it.
#[test]
fn limits_are_told_with_the_number_that_broke_them() {
    for (line, expected) in [
        (
            "fx,300,none,0,0,0,5,0",
            "group is '300', and may be 0 to 31",
        ),
        (
            "fx,1,none,0,0,70000,5,0",
            "issue is '70000', and may be 0 to 65,535",
        ),
        (
            "fx,1,none,0,0,0,5000000000,0",
            "long is '5000000000', and may be 0 to 1,000,000,000",
        ),
    ] {
        assert_eq!(told(line), [expected]);
    }
    let rows = |count| format!("{HEADER}\n{}", "fx,1,none,0,0,0,5,0\n".repeat(count));
    let [a, most] = [2_500, 1_501].map(|count| file("rows.csv", rows(count)));
    let b = sample("mixed");
    let error = fails(1, &["join", &a, &most, "x"]);
    let both =
        format!("{a} has 2,500 rows and {most} 1,501, together 4,001, and 4,000 are the most\n");
    assert!(error.ends_with(&both), "{error}");
    prints(&["join", &a, &b, "-", "--csv"]);
}
