//! What somebody hands over in the place of a book: told by what it is, and read no further than it can be of
//! use; and what a program is told of text that is not taken.

mod common;

use books::csv::HEADER;
use books::options::csv::HEADER as OPTIONS;
use common::{fails, prints, run, sample, temporary};
use std::fs;
use std::process::{Command, Output};

/// A file with this content.
fn file(name: &str, content: impl AsRef<[u8]>) -> String {
    let path = temporary(&format!("handed-over-{name}"));
    fs::write(&path, content).unwrap();
    path
}

/// Runs a script that has the command as $1, with at most 400 MB of memory.
fn limited(script: &str) -> Output {
    let script = format!("ulimit -v 400000; {script}");
    let tool = env!("CARGO_BIN_EXE_market-risk");
    let mut shell = Command::new("sh");
    shell.args(["-c", &script, "sh", tool]).output().unwrap()
}

/// Catches a file that is read to its end, wherever that is, and a limit that is not told.
#[test]
fn no_more_is_read_than_can_be_taken() {
    let text = format!("printf '{HEADER}\\n'; yes 'fx,1,none,0,0,0,5,0 '");
    let options = format!("printf '{OPTIONS}\\n'; yes 'fx,0,bought call,none,1,5000,0,0,0,0'");
    for (script, expected) in [
        ("\"$1\" report /dev/zero", "/dev/zero: refused 3: "),
        (
            "\"$1\" report - </dev/zero",
            "the file has more than 64,008 bytes",
        ),
        ("\"$1\" options /dev/zero", "has more than 18,002"),
        (
            "\"$1\" report /dev/null --table /dev/zero",
            "more than 64,000 bytes",
        ),
        ("yes | \"$1\" table -", "more than 64,000 bytes"),
        (
            &format!("({text}) | \"$1\" report -"),
            "more than 4,000,000 bytes, the most for the text of 4,000 rows",
        ),
        (
            &format!("({options}) | \"$1\" pack --options - x"),
            "more than 1,000,000 bytes, the most for the text of 1,000 rows",
        ),
    ] {
        let output = limited(script);
        let error = String::from_utf8(output.stderr).unwrap();
        assert_eq!(output.status.code(), Some(1), "{script}: {error}");
        assert!(error.contains(expected), "{script}: {error}");
    }
}

/// Catches text that begins as no text does, is read as far as a packed book would go, and is then taken.
#[test]
fn text_is_packed_whole_whatever_it_begins_with() {
    let rows = "fx,1,none,0,0,0,5,0\n".repeat(4_000);
    for begin in ["\u{c}", "#\u{1}\n"] {
        let text = file("begin.csv", format!("{begin}{HEADER}\n{rows}"));
        let book = temporary("handed-over-begin.book");
        prints(&["pack", &text, &book]);
        assert_eq!(fs::read(&book).unwrap().len(), 64_008, "{begin:?}");
    }
}

/// Catches another program's file that is told by the counts of a packed book.
#[test]
fn files_of_other_programs_are_told_by_what_they_are() {
    let utf_16: Vec<u8> = HEADER.encode_utf16().flat_map(u16::to_le_bytes).collect();
    for (name, content, words) in [
        (
            "a.xlsx",
            &b"PK\x03\x04\x14\0\x06\0\x08\0\0\0!\0"[..],
            "a spreadsheet file (.xlsx, .ods)",
        ),
        (
            "a.xls",
            b"\xd0\xcf\x11\xe0\xa1\xb1\x1a\xe1\0\0\0\0",
            "a spreadsheet file (.xls)",
        ),
        ("a.csv", &utf_16, "UTF-16 text without a mark"),
        (
            "empty.csv",
            b"",
            "the file is empty; the text of a book begins with the line class,",
        ),
    ] {
        let path = file(name, content);
        for words_of in [&["report", &path][..], &["join", &path, &path, "x"]] {
            let error = fails(1, words_of);
            assert!(error.contains(words), "{error}");
        }
    }
    let (xlsx, keyed) = (temporary("handed-over-a.xlsx"), sample("keyed"));
    for words_of in [&["table", &xlsx][..], &["report", &keyed, "--table", &xlsx]] {
        assert!(fails(1, words_of).contains("a spreadsheet file (.xlsx, .ods)"));
    }
    let marked = file("marked.table", [&b"\xff\xfe"[..], &utf_16].concat());
    assert!(fails(1, &["table", &marked]).contains("UTF-16 text: save it as UTF-8"));
    for command in ["report", "options"] {
        let error = fails(1, &[command, env!("CARGO_BIN_EXE_market-risk")]);
        assert!(
            error.contains(": a program: name the file of positions"),
            "{error}"
        );
    }
}

/// Catches a text fault that leaves a program without an answer, and one without its place.
#[test]
fn faults_of_text_are_printed_as_json() {
    let book = file("json.csv", format!("{HEADER}\ninterest,7,other,,x,1,5,0\n"));
    let table = file("json.table", "weights 1 2 3\n");
    let days = "days is empty; write it in days: a month is 30, a year 360";
    for command in ["report", "ladder"] {
        let output = run(&[command, &book, "--json"]);
        let json = String::from_utf8(output.stdout).unwrap();
        assert_eq!(output.status.code(), Some(1));
        let first = format!(
            "{{\n  \"faults\": [\n    {{\n      \"file\": \"{book}\",\n      \"line\": 2,\n      \
             \"column\": \"days\",\n      \"what\": \"{days}\"\n    }},\n"
        );
        assert!(json.starts_with(&first), "{json}");
        assert_eq!(json.matches("\"column\"").count(), 2);
        assert!(json.ends_with("\n  ],\n  \"more_lines\": 0\n}\n"), "{json}");
        let output = run(&[command, &sample("keyed"), "--json", "--table", &table]);
        let json = String::from_utf8(output.stdout).unwrap();
        assert!(
            json.contains(&format!("\"file\": \"{table}\",\n      \"line\": 2")),
            "{json}"
        );
        // Neither text nor CSV has a place for them.
        assert!(fails(1, &[command, &book]).contains(days));
        assert!(fails(1, &[command, &book, "--csv"]).contains(days));
    }
}

/// Catches bad lines past those that are told, of which a program learns nothing.
#[test]
fn lines_that_are_not_told_are_counted_in_json() {
    let book = file("many.csv", format!("{HEADER}\n{}", "fx\n".repeat(25)));
    let json = String::from_utf8(run(&["report", &book, "--json"]).stdout).unwrap();
    assert_eq!(json.matches("\"what\"").count(), 20);
    assert!(json.ends_with("\n  ],\n  \"more_lines\": 5\n}\n"), "{json}");
}
