//! `dearest` as a user meets it.

mod common;

use common::{fails, prints, run, temporary, unpacked};
use std::fs;

/// The words of the command, and a file to write.
fn words<'a>(rows: &'a str, most: &'a str) -> Vec<&'a str> {
    vec!["dearest", "--rows", rows, "--most", most]
}

/// The first line of what is printed, and the figure of it.
fn total(text: &str) -> (&str, &str) {
    let first = text.lines().next().unwrap();
    (first, first.split_whitespace().nth(1).unwrap())
}

/// Catches a figure in another unit or place: three rows of 100 thousands, 20.5% of which are 61,500.
#[test]
fn the_whole_text_by_hand() {
    let lines = [
        "total  61,500.000  = 3 rows x 100 x 205.000",
        "",
        "a unit at most    specific  general  together  3 rows x 100",
        "interest            80.000  125.000   205.000    61,500.000",
        "equity              80.000   80.000   160.000    48,000.000",
        "foreign exchange     0.000   80.000    80.000    24,000.000",
        "commodity            0.000  186.000   186.000    55,800.000",
    ];
    let text = lines.join("\n") + "\n";
    assert_eq!(prints(&words("3", "100")), text);
    let out = temporary("dearest.book");
    let written = prints(&[&words("3", "100")[..], &["-o", &out]].concat());
    assert_eq!(written, format!("{text}{out}: 56 bytes\n"));
    let row = "interest,0,other,36000,0,0,100,0";
    assert_eq!(unpacked(&out), [row; 3]);
    // The report charges the book what was printed of it.
    let report = prints(&["report", &out]);
    assert!(
        report.ends_with("\ntotal              61,500.000\n"),
        "{report}"
    );
}

/// Totals at the limits, by hand: 205 currency units for each thousand.
#[test]
fn totals_at_the_limits() {
    let out = temporary("dearest-limits.book");
    for (rows, most, figure, bytes) in [
        ("0", "1", "0.000", "8"),
        ("0", "1000000000", "0.000", "8"),
        ("1", "1", "205.000", "24"),
        ("1", "1_000_000_000", "205,000,000,000.000", "24"),
        ("4000", "1", "820,000.000", "64,008"),
        ("4_000", "1000000000", "820,000,000,000,000.000", "64,008"),
    ] {
        let text = prints(&[&words(rows, most)[..], &["-o", &out]].concat());
        assert_eq!(total(&text).1, figure, "{text}");
        assert!(text.ends_with(&format!("{out}: {bytes} bytes\n")), "{text}");
        assert_eq!(
            fs::read(&out).unwrap().len().to_string(),
            bytes.replace(',', "")
        );
        let report = prints(&["report", &out]);
        assert!(report.ends_with(&format!(" {figure}\n")), "{report}");
    }
    assert_eq!(
        total(&prints(&words("4000", "1000000000"))).0,
        "total  820,000,000,000,000.000  = 4,000 rows x 1,000,000,000 x 205.000"
    );
}

/// Catches numbers that are refused without being told, and a file that is written all the same.
#[test]
fn numbers_past_their_limits_are_told_in_words() {
    let out = temporary("dearest-refused.book");
    let refused =
        "market-risk: refused 22: more than 4,000 rows, or a largest amount that is not 1 to \
                   1,000,000,000\n";
    let many = "4,001 rows, and 4,000 are the most\n";
    let amount =
        |most: &str| format!("a largest amount of {most}, and it may be 1 to 1,000,000,000\n");
    for (rows, most, why) in [
        ("4001", "1", many.to_string()),
        ("4000", "0", amount("0")),
        ("0", "1000000001", amount("1,000,000,001")),
        ("4001", "0", many.to_string() + &amount("0")),
        ("1", "4294967297", amount("4,294,967,297")),
        (
            "18446744073709551615",
            "1",
            many.replace("4,001", "18,446,744,073,709,551,615"),
        ),
    ] {
        fs::write(&out, "old").unwrap();
        let told = fails(1, &[&words(rows, most)[..], &["-o", &out]].concat());
        assert_eq!(told, format!("{refused}{why}"));
        assert_eq!(fs::read(&out).unwrap(), b"old");
    }
}

#[test]
fn wrong_command_lines() {
    let out = temporary("dearest-words.book");
    let _ = fs::remove_file(&out);
    let missing = |words: &[&str], told: &str| assert!(fails(2, words).contains(told));
    missing(&["dearest"], "dearest: --rows K and --most M are missing");
    missing(&["dearest", "--rows", "3"], "dearest: --most M is missing");
    missing(
        &["dearest", "--most", "3", "-o", &out],
        "--rows K is missing",
    );
    for number in ["x", "-1", "1.5", "", "18446744073709551616"] {
        assert!(fails(2, &words(number, "1")).contains("--rows is "));
        assert!(fails(2, &words("1", number)).contains("--most is "));
    }
    assert!(fails(2, &[&words("1", "1")[..], &[&out]].concat()).contains("one word too many"));
    assert!(fails(2, &[&words("1", "1")[..], &["--table", "x"]].concat()).contains("no option"));
    assert!(fails(2, &[&words("1", "1")[..], &["-o"]].concat()).contains("-o wants a value"));
    for to in ["-", "/dev/stdout"] {
        let told = fails(2, &[&words("1", "1")[..], &["-o", to]].concat());
        assert!(told.contains("dearest: -o is standard output"), "{told}");
    }
    let folder = temporary("no-such-folder/dearest.book");
    assert!(fails(2, &[&words("1", "1")[..], &["-o", &folder]].concat()).contains("dearest.book: "));
    assert!(!fs::exists(&out).unwrap());
    assert!(run(&["dearest", "-o", &out, "--most", "2", "--rows", "1"])
        .status
        .success());
    assert_eq!(unpacked(&out), ["interest,0,other,36000,0,0,2,0"]);
    let help = prints(&["dearest", "--help"]);
    assert!(help.starts_with("market-risk dearest --rows K --most M [-o FILE [--csv]]\n"));
}
