//! The man page as a reader meets it: nothing for roff to complain of, and examples that run.

mod common;

use common::{prints, sample, temporary};
use std::fs;
use std::io::Write;
use std::path::Path;
use std::process::{Command, Stdio};

/// The lines of a section of the page.
fn section<'a>(page: &'a str, heading: &str) -> Vec<&'a str> {
    let below = page.lines().skip_while(|line| *line != heading).skip(1);
    below.take_while(|line| !line.starts_with(".SH ")).collect()
}

/// Whether a program is there; says so where it is not.
fn there(program: &str) -> bool {
    let found = Command::new(program).arg("--version").output().is_ok();
    if !found {
        eprintln!("skipped: {program} is not there");
    }
    found
}

/// What a program prints of the page, and its complaints.
fn shown(program: &str, words: &[&str], page: &str) -> (String, String) {
    let mut run = Command::new(program);
    run.args(words).stdin(Stdio::piped());
    run.stdout(Stdio::piped()).stderr(Stdio::piped());
    let mut child = run.spawn().unwrap();
    child
        .stdin
        .take()
        .unwrap()
        .write_all(page.as_bytes())
        .unwrap();
    let output = child.wait_with_output().unwrap();
    let text = |bytes: Vec<u8>| String::from_utf8_lossy(&bytes).into_owned();
    (text(output.stdout), text(output.stderr))
}

#[test]
fn the_page_has_its_sections() {
    let page = prints(&["man"]);
    let headings = page.lines().filter_map(|line| line.strip_prefix(".SH "));
    let expected = [
        "NAME",
        "SYNOPSIS",
        "DESCRIPTION",
        "COMMANDS",
        "CSV",
        "\"EXIT STATUS\"",
        "FILES",
        "EXAMPLES",
        "\"SEE ALSO\"",
    ];
    assert_eq!(headings.collect::<Vec<_>>(), expected);
    // Each command that --help lists is told of, in its order.
    let help = prints(&["--help"]);
    let listed = help.lines().filter_map(|line| line.strip_prefix("  "));
    let listed: Vec<&str> = listed.map(|line| line.split(' ').next().unwrap()).collect();
    let told = section(&page, ".SH COMMANDS").into_iter();
    let told = told.filter_map(|line| line.strip_prefix(".SS "));
    let told: Vec<String> = told.map(|name| name.replace('\\', "")).collect();
    assert_eq!(told, listed);
}

/// Catches an option, a status or a word of a help text that the page has not.
#[test]
fn the_page_says_what_help_says() {
    let page = prints(&["man"]).replace('\\', "");
    for command in ["pack", "ladder", "least-trade", "net", "vectors"] {
        let help = prints(&["help", command]);
        let options = help.lines().filter(|line| line.starts_with("  -"));
        for option in options {
            let name = option.trim_start().split("  ").next().unwrap();
            assert!(page.contains(&format!(".TP\n.B {name}\n")), "{name}");
        }
    }
    let statuses = section(&page, ".SH \"EXIT STATUS\"");
    let statuses = statuses.iter().filter_map(|line| line.strip_prefix(".B "));
    assert_eq!(statuses.collect::<Vec<_>>(), ["0", "1", "2"]);
}

/// Catches examples that do not run, in the order of the page.
#[test]
fn the_examples_run() {
    let folder = temporary("examples");
    let _ = fs::remove_dir_all(&folder);
    fs::create_dir_all(&folder).unwrap();
    fs::copy(sample("keyed"), format!("{folder}/keyed.csv")).unwrap();
    let tool = Path::new(env!("CARGO_BIN_EXE_market-risk"));
    let path = format!("{}:/usr/bin:/bin", tool.parent().unwrap().display());
    let page = prints(&["man"]);
    let lines = section(&page, ".SH EXAMPLES").into_iter();
    let lines = lines.filter(|line| line.starts_with("market"));
    let mut printed = Vec::new();
    for line in lines.map(|line| line.replace('\\', "")) {
        let mut shell = Command::new("bash");
        shell.args(["-euo", "pipefail", "-c", &line]);
        let output = shell.current_dir(&folder).env("PATH", &path).output();
        let output = output.unwrap();
        assert!(
            output.status.success() && output.stderr.is_empty(),
            "{line}"
        );
        printed.push(String::from_utf8(output.stdout).unwrap());
    }
    // The book, which samples/README.md charges 735; its ladder; the least trade.
    assert!(printed.len() >= 4 && printed[0].is_empty());
    let total = |text: &str| {
        text.lines()
            .any(|line| line.starts_with("total") && line.ends_with(" 735.000"))
    };
    assert!(total(&printed[1]) && total(printed.last().unwrap()));
    assert!(printed[3].starts_with("short in band 5 of currency 7: "));
}

/// Catches what roff complains of, and text that it swallows.
#[test]
fn roff_has_nothing_to_complain_of() {
    let page = prints(&["man"]);
    if there("groff") {
        let words = ["-man", "-ww", "-Tascii", "-P-cbou"];
        let (text, complaints) = shown("groff", &words, &page);
        assert_eq!(complaints, "");
        assert!(text.contains("class,group,kind,days,coupon,issue,long,short"));
        assert!(text.contains("market-risk ladder BOOK --commodity N"));
    }
    if there("mandoc") {
        let (complaints, errors) = shown("mandoc", &["-T", "lint"], &page);
        assert_eq!(complaints + &errors, "");
    }
}
