//! `net` as a user meets it.

mod common;

use common::{book, fails, packed, prints, run, sample, temporary, unpacked};
use std::fs;

/// The lines of a netted book, without the header.
fn netted(book: &str) -> Vec<String> {
    let out = format!("{book}.netted");
    assert_eq!(prints(&["net", book, &out]), "");
    unpacked(&out)
}

/// The dealers' book, its report before and after.
#[test]
fn the_same_bond_long_and_short() {
    let lines = [
        "interest,7,qualifying,1080,800,5,100,0",
        "interest,7,qualifying,1080,800,5,0,40",
    ];
    let bonds = book("bonds", &lines);
    let one = "interest,7,qualifying,1080,800,5,60,0";
    assert_eq!(netted(&bonds), [one]);
    let total = |book: &str| {
        prints(&["report", book])
            .lines()
            .last()
            .unwrap()
            .to_string()
    };
    // 1.6% of 140 and 10% of 700 with 1,050 left; then 1.6% of 60 and 1,050.
    assert_eq!(total(&bonds), "total              3,360.000");
    assert_eq!(
        total(&format!("{bonds}.netted")),
        "total              2,010.000"
    );
    // Netted once more it is the same, also through standard input and output.
    let again = format!("{bonds}.netted");
    assert_eq!(netted(&again), [one]);
    assert_eq!(run(&["net", &again, "-"]).stdout, fs::read(&again).unwrap());
}

/// Catches a row in another place, number 0 or two classes netted, and a zero net that is kept.
#[test]
fn the_sample_is_netted_as_its_readme_says() {
    let expected = fs::read_to_string(sample("netted")).unwrap();
    let lines = netted(&packed("netting", "sample"));
    assert!(expected
        .lines()
        .skip(1)
        .eq(lines.iter().map(String::as_str)));
}

/// A book that nets to nothing is a book without rows.
#[test]
fn nothing_may_be_left() {
    let none = book("none", &["fx,1,none,0,0,3,5,0", "fx,1,none,0,0,3,0,5"]);
    assert_eq!(netted(&none), [""; 0]);
    assert_eq!(fs::read(format!("{none}.netted")).unwrap(), [0; 8]);
    assert_eq!(netted(&packed("empty", "net")), [""; 0]);
}

/// Catches a refusal without its row, its words or what the first row has; and an output that is
/// written, or lost, all the same.
#[test]
fn thirteen_and_fourteen_are_told_in_words() {
    let out = temporary("refused.netted");
    fs::write(&out, "old").unwrap();
    let unlike = book(
        "unlike",
        &[
            "interest,7,government,1080,800,5,100,0",
            "equity,3,ordinary,0,0,5,1000000000,0",
            "equity,3,ordinary,0,0,5,1,0",
            "commodity,4,none,400,0,8,7,0",
            "commodity,4,none,401,0,8,0,7",
        ],
    );
    let error = fails(1, &["net", &unlike, &out]);
    let told = "unlike.book: refused 13 row 4: group, kind, days or coupon not those of the first \
                row of its issue\ncommodity row: group 4, kind none, days 401, coupon 0, issue 8, \
                long 0, short 7; row 3, the first of issue 8, has days 400\n";
    assert!(error.ends_with(told), "{error}");
    let over = book(
        "over",
        &[
            "interest,7,government,1080,800,5,100,0",
            "equity,3,ordinary,0,0,5,1000000000,0",
            "equity,3,ordinary,0,0,5,1,0",
        ],
    );
    let error = fails(1, &["net", &over, &out]);
    let told = "over.book: refused 14 row 1: the net of its issue is over 1,000,000,000\nequity \
                row: group 3, kind ordinary, days 0, coupon 0, issue 5, long 1,000,000,000, short 0; \
                the 2 rows of issue 5 net to long 1,000,000,001, and 1,000,000,000 is the most\n";
    assert!(error.ends_with(told), "{error}");
    assert_eq!(fs::read(&out).unwrap(), b"old");
    // Both books are charged as they are: no charge looks at issues.
    assert!(run(&["report", &unlike]).status.success());
}

/// Catches another order of refusals than the report's, and a bad row that is told without its
/// fields.
#[test]
fn other_refusals_are_told_as_by_report() {
    let mut bytes = fs::read(packed("netting", "order")).unwrap();
    // Row 4 is of another currency than row 0, its issue's first; row 7 has no kind.
    bytes[8 + 4 * 16] = 8;
    let bad = temporary("bad-net.book");
    fs::write(&bad, &bytes).unwrap();
    let out = temporary("bad-net.netted");
    let error = fails(1, &["net", &bad, &out]);
    assert!(error.contains(": refused 13 row 4: "), "{error}");
    assert!(
        error.ends_with("row 0, the first of issue 5, has group 7\n"),
        "{error}"
    );
    bytes[8 + 7 * 16 + 1] = 0;
    fs::write(&bad, &bytes).unwrap();
    let error = fails(1, &["net", &bad, &out]);
    assert!(error.contains(": refused 5 row 7: "), "{error}");
    assert_eq!(error, fails(1, &["report", &bad]));
    fs::write(&bad, &bytes[..7]).unwrap();
    assert_eq!(fails(1, &["net", &bad, &out]), fails(1, &["report", &bad]));
    assert!(fs::metadata(&out).is_err());
}

#[test]
fn wrong_command_lines_and_files() {
    assert!(fails(2, &["net"]).contains("net: BOOK and OUT are missing"));
    let book = packed("netting", "words");
    assert!(fails(2, &["net", &book]).contains("net: OUT is missing"));
    assert!(fails(2, &["net", &book, &book]).contains("are one file"));
    for option in ["--table", "--currency", "--unchecked", "--comparison"] {
        let told = fails(2, &["net", &book, "x", option]);
        assert!(told.contains(&format!("no option '{option}'")), "{told}");
    }
    let out = temporary("words.netted");
    assert!(fails(2, &["net", &temporary("no-book"), &out]).contains("no-book: "));
    let help = prints(&["net", "--help"]);
    assert!(
        help.starts_with("market-risk net BOOK OUT [--offset [--pairs]] [--comparisons] [--csv]\n"),
        "{help}"
    );
}

/// Catches a count of other rows or a bound of other rows, one that is printed without being asked
/// for, and one that hinders the book.
#[test]
fn comparisons_are_printed_with_the_most_that_there_can_be() {
    let rows = |name: &str, issues: &[u16]| {
        let issues = issues.iter();
        let lines: Vec<String> = issues
            .map(|issue| format!("fx,1,none,0,0,{issue},1,0"))
            .collect();
        let lines: Vec<&str> = lines.iter().map(String::as_str).collect();
        book(name, &lines)
    };
    let all: Vec<u16> = (1..=4_000).collect();
    for (name, issues, line) in [
        ("counted-1", &[1, 1, 2][..], "2 of at most 3"),
        ("counted-2", &[1, 2, 2], "3 of at most 3"),
        ("counted-3", &[0, 0, 0, 0], "0 of at most 6"),
        ("counted-4", &all, "7,998,000 of at most 7,998,000"),
    ] {
        let (from, to) = (rows(name, issues), temporary(&format!("{name}.netted")));
        let printed = prints(&["net", &from, &to, "--comparisons"]);
        assert_eq!(printed, format!("comparisons {line}\n"));
        let lines = netted(&from);
        assert_eq!(fs::read(&to).unwrap().len(), 8 + 16 * lines.len());
    }
    let sample = packed("netting", "count");
    let out = temporary("count.netted");
    let printed = prints(&["net", "--comparisons", &sample, &out]);
    assert_eq!(printed, "comparisons 5 of at most 28\n");
    let empty = packed("empty", "count");
    let printed = prints(&["net", &empty, &out, "--comparisons"]);
    assert_eq!(printed, "comparisons 0 of at most 0\n");
}

/// Catches a line behind the bytes of a book on standard output, by either name, or beside a
/// refusal.
#[test]
fn comparisons_are_not_mixed_with_a_book() {
    let sample = packed("netting", "mixed");
    for out in ["-", "/dev/stdout"] {
        let told = fails(2, &["net", &sample, out, "--comparisons"]);
        let why = "net: --comparisons prints on standard output, where the netted book goes";
        assert!(told.contains(why), "{told}");
        assert!(run(&["net", &sample, out, "--comparisons"])
            .stdout
            .is_empty());
    }
    let bad = temporary("uncounted.book");
    fs::write(&bad, &fs::read(&sample).unwrap()[..40]).unwrap();
    let out = temporary("uncounted.netted");
    let plain = fails(1, &["net", &bad, &out]);
    assert_eq!(fails(1, &["net", &bad, &out, "--comparisons"]), plain);
    assert!(run(&["net", &bad, &out, "--comparisons"]).stdout.is_empty());
    assert!(fs::metadata(&out).is_err());
}
