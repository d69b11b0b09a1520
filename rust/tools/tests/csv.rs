//! Books and option tables as text, in the place of packed ones, in every command that takes them.

mod common;

use common::{fails, least_trade, packed, prints, sample, temporary};
use std::fs::{self, File};
use std::process::Command;

const HEADER: &str = "class,group,kind,days,coupon,issue,long,short";

/// A file of text of this test run.
fn text(name: &str, text: impl AsRef<[u8]>) -> String {
    let path = temporary(&format!("csv-{name}.csv"));
    fs::write(&path, text).unwrap();
    path
}

/// The words of a command on one file: FILE stands for it.
fn words<'a>(command: &'a str, file: &'a str) -> Vec<&'a str> {
    let word = |word| if word == "FILE" { file } else { word };
    command.split(' ').map(word).collect()
}

/// Catches a command that takes packed books alone, or that takes another book from text.
#[test]
fn every_command_takes_text_as_it_takes_a_book() {
    let trade = "least-trade FILE --currency 7 --band 5 --side short --limit 1";
    for (name, command) in [
        ("spreadsheet", "report FILE"),
        ("mixed", "report FILE --currencies"),
        ("spreadsheet", "ladder FILE --currency 7"),
        ("spreadsheet", "ladder FILE --commodity 5"),
        ("spreadsheet", trade),
        ("spreadsheet", "unpack FILE -"),
        ("mixed", "unpack FILE -"),
        ("small-bank", "small-bank FILE"),
    ] {
        let (csv, book) = (sample(name), packed(name, "either"));
        let of_book = prints(&words(command, &book));
        assert_eq!(prints(&words(command, &csv)), of_book, "{command}");
    }
    let (csv, table) = (sample("options"), temporary("csv-table"));
    prints(&["pack", "--options", &csv, &table]);
    for command in ["options FILE", "unpack --options FILE -"] {
        let of_table = prints(&words(command, &table));
        assert_eq!(prints(&words(command, &csv)), of_table, "{command}");
    }
}

/// The same of commands that write a book.
#[test]
fn every_command_writes_of_text_what_it_writes_of_a_book() {
    let (csv, book) = (sample("netting"), packed("netting", "write"));
    let out = temporary("csv-written.book");
    for command in [
        "net FILE",
        "offset FILE",
        "net --offset FILE",
        "join FILE FILE",
    ] {
        let [of_text, of_book] = [&csv, &book].map(|file| {
            // The output stands apart: a folder's name may have blanks.
            prints(&[&words(command, file)[..], &[&out]].concat());
            fs::read(&out).unwrap()
        });
        assert_eq!(of_text, of_book, "{command}");
        fs::remove_file(&out).unwrap();
    }
}

/// Catches text that does not come back sorted and plain.
#[test]
fn text_is_unpacked_plainly() {
    let plain = prints(&["unpack", &sample("spreadsheet"), "-"]);
    assert!(plain.starts_with(&format!("{HEADER}\ninterest,7,government,270,800,1,75,0\n")));
    assert!(plain.ends_with("\nfx,0,none,0,0,0,0,60\ncommodity,5,none,0,0,0,500,0\n"));
    assert_eq!(prints(&["unpack", &text("plain", &plain), "-"]), plain);
}

/// Catches a refusal of text that is told with the row of the packed book, in any command.
#[test]
fn refusals_of_text_name_the_line() {
    let bad = "Class;Group;Kind;Long;Short;Days;Coupon;Issue\n\nfx;1;none;5;0;;;\n# x\ninterest;7;other;3;4;0;0;\n";
    let (csv, out) = (text("refused", bad), temporary("csv-refused.out"));
    let good = sample("keyed");
    let line =
        format!("market-risk: {csv}: line 5: refused 8: both amounts zero or both nonzero\n");
    let row = "interest row: group 7, kind other, days 0, coupon 0, issue 0, long 3, short 4; \
               exactly one of long and short must be nonzero\n";
    for words in [
        &["pack", &csv, &out][..],
        &["report", &csv],
        &["ladder", &csv, "--currency", "7"],
        &["ladder", &csv, "--commodity", "7"],
        &least_trade(&csv, "7 5 short 1"),
        &["net", &csv, &out],
        &["net", "--offset", &csv, &out],
        &["offset", &csv, &out],
    ] {
        assert_eq!(fails(1, words), format!("{line}{row}"), "{words:?}");
    }
    for words in [&["join", &csv, &good, &out], &["join", &good, &csv, &out]] {
        assert_eq!(fails(1, words), format!("{line}{row}"), "{words:?}");
    }
    let told = prints(&["shortest", &csv, "-o", &out]);
    let line = line.strip_prefix(&format!("market-risk: {csv}: ")).unwrap();
    assert_eq!(told, format!("{line}{row}{out}: 24 of 40 bytes\n"));
}

/// Catches an issue that is told with the line of one row and the number of another.
#[test]
fn an_issue_that_cannot_be_netted_is_told_by_lines() {
    let rows = "fx,1,none,,,5,5,0\n\nfx,2,none,,,5,5,0\n";
    let csv = text("issue", format!("{HEADER}\n{rows}"));
    let told = fails(1, &["net", &csv, &temporary("csv-issue.out")]);
    assert!(told.contains(": line 4: refused 13: "), "{told}");
    assert!(
        told.ends_with("; line 2, the first of issue 5, has group 1\n"),
        "{told}"
    );
    let many = text(
        "many",
        format!("{HEADER}\n{}", "fx,1,none,,,,5,0\n".repeat(4_001)),
    );
    let told = fails(1, &["report", &many]);
    assert!(told.contains(": line 4002: refused 2: "), "{told}");
    assert!(
        told.ends_with(
            "\nthe text counts 0, 0, 4,001, 0 rows, together 4,001, and 4,000 are the most\n"
        ),
        "{told}"
    );
}

/// Catches a bad line that hides another, in each command, and an exit status that is not 1.
#[test]
fn bad_text_is_told_with_every_line() {
    let rows =
        "fx,1,none,,,,\"1,000\",0\nfx,1,none,,,,5,0\nfx,1,none,,,,1,000,0\nfx,1,none,,,,,5\n";
    let (csv, out) = (
        text("bad", format!("{HEADER}\n{rows}")),
        temporary("csv-bad.out"),
    );
    let told = format!(
        "market-risk: {csv}: line 2: long is '1,000': thousands separators are not taken; \
         write 1000 if that is meant
{csv}: line 4: 9 fields where 8 are wanted; is there a thousands separator?
{csv}: line 5: long is empty; write it in whole thousands of the reporting currency: \
         a million is 1000; 0 where there is none
"
    );
    for words in [
        &["report", &csv][..],
        &["pack", "--unchecked", &csv, &out],
        &["join", &sample("keyed"), &csv, &out],
        &["unpack", &csv, &out],
    ] {
        assert_eq!(fails(1, words), told, "{words:?}");
    }
    let header = "Class,Group,Kind,Days,Coupon,Issue,Lang,Short\n";
    let told = fails(1, &["report", &text("header", header)]);
    let why = "line 1: 'Lang' is no column; long is missing; the columns are class, group, ";
    assert!(told.contains(why), "{told}");
    for text_16 in [b"\xff\xfec\0l\0a\0s\0s\0", b"\xfe\xff\0c\0l\0a\0s\0s"] {
        let told = fails(1, &["report", &text("utf-16", text_16)]);
        assert!(
            told.ends_with(": line 1: UTF-16 text; save it as CSV UTF-8\n"),
            "{told}"
        );
    }
    let book = packed("keyed", "no-text");
    let told = fails(1, &["pack", &book, &out]);
    assert!(
        told.ends_with(": it is packed already, and text is wanted\n"),
        "{told}"
    );
}

/// Catches eight bytes that are taken for text, though `shortest` writes them to show refusal 2.
#[test]
fn eight_bytes_are_a_book() {
    let told = fails(1, &["report", &text("eight", "class,gr")]);
    assert!(told.contains(": refused 2: more than 4,000 rows"), "{told}");
    let told = fails(1, &["report", &text("nine", "class,gro")]);
    assert!(told.contains(": line 1: 'gro' is no column; "), "{told}");
}

/// Catches text that is not taken from standard input, and one input that is read twice.
#[test]
fn text_may_come_by_standard_input() {
    let csv = sample("spreadsheet");
    let mut command = Command::new(env!("CARGO_BIN_EXE_market-risk"));
    let input = File::open(&csv).unwrap();
    let output = command.args(["report", "-"]).stdin(input).output().unwrap();
    assert_eq!(
        String::from_utf8(output.stdout).unwrap(),
        prints(&["report", &csv])
    );
    let told = fails(2, &["join", "-", "-", &temporary("csv-twice.out")]);
    assert!(
        told.contains("standard input can be read once only"),
        "{told}"
    );
}
