//! Running the command.
#![allow(dead_code)]

use std::fs;
use std::path::PathBuf;
use std::process::{Command, Output};

/// A file of this test run.
pub fn temporary(name: &str) -> String {
    let path = PathBuf::from(env!("CARGO_TARGET_TMPDIR")).join(name);
    path.to_str().unwrap().to_string()
}

/// A sample book of the repository.
pub fn sample(name: &str) -> String {
    format!("{}/../../samples/{name}.csv", env!("CARGO_MANIFEST_DIR"))
}

/// Runs the command.
pub fn run(words: &[&str]) -> Output {
    let mut command = Command::new(env!("CARGO_BIN_EXE_market-risk"));
    command.args(words).output().unwrap()
}

/// What a command prints that must have succeeded.
fn printed(words: &[&str], output: Output) -> String {
    let errors = String::from_utf8_lossy(&output.stderr);
    assert!(output.status.success(), "{words:?}: {errors}");
    String::from_utf8(output.stdout).unwrap()
}

/// Runs the command, which must succeed, and gives what it prints.
pub fn prints(words: &[&str]) -> String {
    printed(words, run(words))
}

/// The same in another folder.
pub fn prints_in(folder: &str, words: &[&str]) -> String {
    let mut command = Command::new(env!("CARGO_BIN_EXE_market-risk"));
    command.current_dir(folder).args(words);
    printed(words, command.output().unwrap())
}

/// Runs the command, which must fail with this status, and gives its error.
pub fn fails(status: i32, words: &[&str]) -> String {
    let output = run(words);
    assert_eq!(output.status.code(), Some(status), "{words:?}");
    assert!(output.stdout.is_empty());
    String::from_utf8(output.stderr).unwrap()
}

/// A sample, packed into a file of its own for each test.
pub fn packed(name: &str, test: &str) -> String {
    let book = temporary(&format!("{test}-{name}.book"));
    prints(&["pack", &sample(name), &book]);
    book
}

/// The first line of CSV text.
const HEADER: &str = "class,group,kind,days,coupon,issue,long,short";

/// A book of some lines of CSV text.
pub fn book(name: &str, lines: &[&str]) -> String {
    let (csv, book) = (
        temporary(&format!("{name}.csv")),
        temporary(&format!("{name}.book")),
    );
    fs::write(&csv, format!("{HEADER}\n{}\n", lines.join("\n"))).unwrap();
    prints(&["pack", &csv, &book]);
    book
}

/// The lines of a book, without the header.
pub fn unpacked(book: &str) -> Vec<String> {
    let text = prints(&["unpack", book, "-"]);
    text.lines().skip(1).map(String::from).collect()
}

/// The words of `least-trade`: a book; a currency, a band, a side and a limit.
pub fn least_trade<'a>(book: &'a str, asked: &'a str) -> Vec<&'a str> {
    let names = ["--currency", "--band", "--side", "--limit"];
    let options = names.into_iter().zip(asked.split(' '));
    let options = options.flat_map(|(name, value)| [name, value]);
    ["least-trade", book].into_iter().chain(options).collect()
}
