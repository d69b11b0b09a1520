//! Standard streams that are closed, or open the other way alone: what is lost is never told as done.

mod common;

use common::{sample, temporary};
use std::fs;
use std::process::{Command, Output, Stdio};
use std::sync::LazyLock;

/// A folder that has a sample as x.csv, made once.
static FOLDER: LazyLock<String> = LazyLock::new(|| {
    let folder = temporary("closed");
    fs::create_dir_all(&folder).unwrap();
    fs::copy(sample("keyed"), format!("{folder}/x.csv")).unwrap();
    folder
});

/// A shell's line in that folder, with the command as $1.
fn shell(line: &str) -> Output {
    let words = ["-c", line, "sh", env!("CARGO_BIN_EXE_market-risk")];
    let mut shell = Command::new("sh");
    shell.current_dir(&*FOLDER).args(words).stdin(Stdio::null());
    shell.output().unwrap()
}

/// A line's exit status and what it says on standard error.
fn ends(line: &str) -> (Option<i32>, String) {
    let output = shell(line);
    let told = String::from_utf8(output.stderr).unwrap();
    assert!(output.stdout.is_empty(), "{line}");
    (output.status.code(), told)
}

/// Commands that print, each in its own way.
const PRINTING: [&str; 17] = [
    "report x.csv",
    "report x.csv --json",
    "report x.csv --csv",
    "ladder x.csv",
    "ladder x.csv --json",
    "ladder x.csv --currency 7 --svg",
    "least-trade x.csv --currency 7 --band 5 --side short --limit 420",
    "html x.csv -o -",
    "net x.csv -",
    "pack x.csv -",
    "net x.csv netted.book --comparisons",
    "dearest --rows 3 --most 100",
    "table",
    "compare --count 1",
    "help",
    "report --help",
    "--version",
];

/// Catches figures that are lost while the status says done, and a command that writes standard output
/// in another way than the rest.
#[test]
fn a_closed_output_is_an_error_of_every_command_that_prints() {
    let told = "market-risk: standard output: it is closed\n".to_string();
    for words in PRINTING {
        let closed = ends(&format!("\"$1\" {words} >&-"));
        assert_eq!(closed, (Some(2), told.clone()), "{words}");
    }
    let told = "market-risk: /dev/stdout: it is closed\n".to_string();
    assert_eq!(ends("\"$1\" pack x.csv /dev/stdout >&-"), (Some(2), told));
}

/// Catches a closed output that is guessed from the null device, whichever way that is open, and one
/// that is told where nothing is printed or the null device is the output by name.
#[test]
fn the_null_device_is_an_output_like_others() {
    for words in PRINTING {
        for to in [">/dev/null", "1<>/dev/null", ">/dev/null <&-"] {
            let fine = ends(&format!("\"$1\" {words} {to}"));
            assert_eq!(fine, (Some(0), String::new()), "{words} {to}");
        }
    }
    for line in [
        "pack x.csv packed.book >&-",
        "pack x.csv /dev/null >&-",
        "pack x.csv /dev/null <&- >&- 2>&-",
    ] {
        let fine = ends(&format!("\"$1\" {line}"));
        assert_eq!(fine, (Some(0), String::new()), "{line}");
    }
}

/// Catches a closed input that is read as an empty file, and one that is told where it is not read.
#[test]
fn a_closed_input_is_told() {
    let told = "market-risk: standard input: it is closed\n".to_string();
    for words in ["report -", "pack - -", "report x.csv --table -", "table -"] {
        let closed = ends(&format!("\"$1\" {words} <&-"));
        assert_eq!(closed, (Some(2), told.clone()), "{words}");
    }
    let empty = shell("\"$1\" report - </dev/null");
    assert_eq!(empty.status.code(), Some(1));
    let given = shell("\"$1\" report - <x.csv");
    assert_eq!(given.stdout, shell("\"$1\" report x.csv <&-").stdout);
    assert!(given.status.success() && !given.stdout.is_empty());
}

/// Catches a status that hangs on whether its message can be written.
#[test]
fn a_closed_error_stream_changes_no_status() {
    for (status, line) in [
        (2, "report x.csv >&- 2>&-"),
        (2, "report - <&- 2>&-"),
        (2, "report - <&- >&- 2>&-"),
        (2, "report 2>&-"),
        (1, "small-bank x.csv 2>&-"),
        (0, "report x.csv >/dev/null 2>&-"),
    ] {
        let ended = ends(&format!("\"$1\" {line}"));
        assert_eq!(ended, (Some(status), String::new()), "{line}");
    }
}

/// Catches an output that is open for reading alone, or an input for writing: both fail at the first
/// byte, which is passed over by the runtime.
#[test]
fn streams_that_are_open_the_other_way_are_told() {
    for (line, told) in [
        ("report x.csv 1</dev/null", "output: it is open for reading"),
        ("help 1<x.csv", "output: it is open for reading"),
        ("report - 0>written.csv", "input: it is open for writing"),
    ] {
        let ended = ends(&format!("\"$1\" {line}"));
        let told = format!("market-risk: standard {told} alone\n");
        assert_eq!(ended, (Some(2), told), "{line}");
    }
}
