//! Answers to the samples as text, against what the tool prints of them.

use market_risk::{charge, commodity_ladder, interest_ladder, options_book, small_bank, Table};
use std::fs;
use std::path::{Path, PathBuf};

/// The repository's samples.
fn samples() -> PathBuf {
    Path::new(env!("CARGO_MANIFEST_DIR")).join("../../samples")
}

/// The text of a sample.
fn csv(name: &str) -> String {
    fs::read_to_string(samples().join(format!("{name}.csv"))).unwrap()
}

/// The book of a sample.
fn book(name: &str) -> Vec<u8> {
    match books::csv::parse(&csv(name)) {
        Ok(parsed) => parsed.book.encode().unwrap(),
        Err(_) => panic!("{name} is no book"),
    }
}

/// The sample and the group that a file's name tells of: `mixed` and `1` of `mixed.currency-1.txt`, say, where
/// `currency-` is asked for; `steps.table.currency-7.txt` is of another table, and is not.
fn parts<'a>(file: &'a str, what: &str) -> Option<(&'a str, &'a str)> {
    let (sample, rest) = file.strip_suffix(".txt")?.split_once('.')?;
    Some((sample, rest.strip_prefix(what)?))
}

/// The samples of which the tool prints something under document 01's table, their groups, and what it prints.
fn printed(what: &str) -> Vec<(String, String, String)> {
    let mut found = Vec::new();
    for file in fs::read_dir(samples().join("expected")).unwrap() {
        let path = file.unwrap().path();
        let name = path.file_name().unwrap().to_str().unwrap();
        if let Some((sample, group)) = parts(name, what) {
            let text = fs::read_to_string(&path).unwrap();
            found.push((sample.to_string(), group.to_string(), text));
        }
    }
    assert!(!found.is_empty(), "nothing is printed of {what}");
    found
}

/// Whether a line that begins with a name has this figure.
fn has(text: &str, name: &str, figure: &str) -> bool {
    let mut lines = text.lines().filter_map(|line| line.strip_prefix(name));
    lines.any(|rest| rest.split_whitespace().any(|word| word == figure))
}

/// A line's name and figure.
fn named(line: &str) -> (&str, &str) {
    let (name, figure) = line.rsplit_once("  ").unwrap();
    (name.trim_end(), figure)
}

/// Catches a report that is not the tool's to the byte.
#[test]
fn reports() {
    for (name, _, text) in printed("report") {
        let report = charge(&book(&name), &Table::amendment()).unwrap();
        assert_eq!(format!("{report}\n"), text, "{name}");
    }
}

/// The charges come first.
#[test]
fn small_banks() {
    for (name, _, text) in printed("small-bank") {
        let charged = small_bank(&book(&name)).unwrap();
        assert!(text.starts_with(&format!("{charged}\n\n")), "{name}");
    }
}

/// Catches a figure that the tool's ladder has not in a line of that name.
#[test]
fn ladders() {
    for (name, group, text) in printed("currency-") {
        let group = group.parse().unwrap();
        let ladder = interest_ladder(&book(&name), &Table::amendment(), group).unwrap();
        for (figure_name, figure) in ladder.to_string().lines().map(named) {
            assert!(
                has(&text, figure_name, figure),
                "{name} {group}: {figure_name}"
            );
        }
    }
    for (name, group, text) in printed("commodity-") {
        let ladder = commodity_ladder(&book(&name), group.parse().unwrap()).unwrap();
        for (figure_name, figure) in ladder.to_string().lines().map(named) {
            // The tool prints amounts in thousands.
            let figure = figure.strip_suffix(",000").unwrap_or(figure);
            assert!(
                has(&text, figure_name, figure),
                "{name} {group}: {figure_name}"
            );
        }
    }
}

/// The charges in the tool's lines of the same names, gamma and vega in those of the classes, and the whole.
#[test]
fn options() {
    let [(name, _, text)] = &printed("options")[..] else {
        panic!("there is one sample of options");
    };
    let Ok(parsed) = books::options::csv::parse(&csv(name)) else {
        panic!("{name} is no option table");
    };
    let table = books::options::encode(&parsed.options).unwrap();
    let (_, priced) = options_book(&table).unwrap();
    for (figure_name, figure) in priced.to_string().lines().map(named) {
        // Gamma and vega stand in lines that begin with `gamma` and `vega`.
        let line = figure_name.split(" of ").next().unwrap();
        assert!(has(text, line, figure), "{figure_name} {figure}");
    }
}
