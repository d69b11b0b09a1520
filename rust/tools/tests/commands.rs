//! The command as a user meets it: files in, text out, exit status.

mod common;

use common::{fails, least_trade, packed, prints, sample, temporary};
use std::fs;

#[test]
fn help_for_all_and_each() {
    let all = prints(&["--help"]);
    for command in [
        "pack",
        "unpack",
        "report",
        "ladder",
        "least-trade",
        "small-bank",
        "join",
        "net",
        "offset",
        "shortest",
        "dearest",
        "options",
        "table",
        "compare",
        "bench",
        "vectors",
        "help",
        "version",
    ] {
        assert!(all.contains(&format!("\n  {command} ")));
        let one = prints(&[command, "--help"]);
        assert!(
            one.starts_with(&format!("market-risk {command}")),
            "{command}"
        );
        for words in [&["help", command], &["--help", command], &[command, "-h"]] {
            assert_eq!(prints(words), one);
        }
    }
    assert_eq!(prints(&["help"]), all);
    assert_eq!(prints(&["-h"]), all);
    assert!(fails(2, &["help", "lader"]).contains("no command 'lader'; did you mean ladder?"));
    assert!(fails(2, &["help", "ladder", "net"]).contains("'net' is one word too many"));
}

/// Catches a version that is not that of Cargo.toml.
#[test]
fn the_version_is_told() {
    let manifest = concat!(env!("CARGO_MANIFEST_DIR"), "/../Cargo.toml");
    let manifest = fs::read_to_string(manifest).unwrap();
    let line = manifest.lines().find(|line| line.starts_with("version = "));
    let version = line.unwrap().split('"').nth(1).unwrap();
    for words in ["version", "--version", "-V"] {
        assert_eq!(prints(&[words]), format!("market-risk {version}\n"));
    }
    assert!(fails(2, &["version", "x"]).contains("'x' is one word too many"));
}

/// Catches a value behind = that is not the value of the next word, and options behind --.
#[test]
fn options_in_both_forms() {
    let book = packed("keyed", "forms");
    let plain = prints(&["ladder", &book, "--currency", "7"]);
    assert_eq!(prints(&["ladder", "--currency=7", &book]), plain);
    assert_eq!(prints(&["ladder", "--currency=7", "--", &book]), plain);
    for (words, expected) in [
        (
            &["ladder", &book, "--curency=7"][..],
            "no option '--curency' of ladder; did you mean --currency?",
        ),
        (
            &["ladder", &book, "--currency=7", "--currency=7"],
            "ladder: --currency is given twice",
        ),
        (
            &["report", &book, "--currencies=1"],
            "report: --currencies takes no value",
        ),
        (
            &["report", "--", &book, "--currencies"],
            "report: '--currencies' is one file too many, for behind -- no word is an option; \
             market-risk report BOOK [--table FILE] [--currencies] [--json | --csv]",
        ),
        (
            &["lader", &book],
            "no command 'lader'; did you mean ladder?",
        ),
    ] {
        assert_eq!(fails(2, words), format!("market-risk: {expected}\n"));
    }
    // Behind -- help is a file.
    assert!(fails(2, &["report", "--", "--help"]).contains("--help: there is no such file"));
}

/// What the report of each sample has, in whole currency units unless it is shown.
const SAMPLES: [(&str, &str); 16] = [
    ("equity", "0 0 8,800 4,800 0 0 13,600"),
    ("swap", "213,280 4,580,112.500 0 0 0 0 4,793,392.500"),
    ("keyed", "0 735 0 0 0 0 735"),
    ("zones", "0 735 0 0 0 0 735"),
    ("commodity", "0 0 0 0 0 79,200 79,200"),
    ("fx", "0 0 0 0 26,800 0 26,800"),
    (
        "mixed",
        "480,000 334,500 100,000 88,000 85,600 21,600 1,109,700",
    ),
    ("treasury", "20,000 4,005 8,000 8,000 4,000 0 44,005"),
    ("floating", "38,000 38,140 0 0 0 0 76,140"),
    ("netting", "5,440 1,145 5,600 2,400 0 0 14,585"),
    ("netted", "960 1,071 2,400 2,400 0 0 6,831"),
    ("offsetting", "1,920 817 0 0 0 0 2,737"),
    ("offset", "1,920 812 0 0 0 0 2,732"),
    ("order-shared", "0 875 0 0 0 0 875"),
    ("order-together", "0 175 0 0 0 0 175"),
    ("spreadsheet", "50 775 8,800 4,800 24,800 93,000 132,225"),
];

#[test]
fn samples_cost_what_their_readme_says() {
    for (name, expected) in SAMPLES {
        let text = prints(&["report", &packed(name, "report")]);
        let given = text.lines().map(|line| line.rsplit(' ').next().unwrap());
        let given: Vec<&str> = given
            .map(|figure| figure.trim_end_matches(".000"))
            .collect();
        assert_eq!(given.join(" "), expected, "{name}");
    }
}

#[test]
fn packed_samples_unpack_to_the_same_book() {
    for name in [
        "equity",
        "swap",
        "keyed",
        "zones",
        "commodity",
        "fx",
        "mixed",
        "floating",
        "netting",
        "offsetting",
    ] {
        let book = packed(name, "unpack");
        let (text, again) = (
            temporary(&format!("{name}.csv")),
            temporary(&format!("{name}.again")),
        );
        prints(&["unpack", &book, &text]);
        prints(&["pack", &text, &again]);
        assert_eq!(fs::read(&book).unwrap(), fs::read(&again).unwrap());
    }
    // The sorted samples come back letter by letter.
    for name in ["swap", "floating", "netting", "offsetting", "order-shared"] {
        let text = prints(&["unpack", &packed(name, "letters"), "-"]);
        assert_eq!(text, fs::read_to_string(sample(name)).unwrap());
    }
}

/// The option may stand before the book or after it, and changes none of the seven lines.
#[test]
fn currencies_are_listed_below_the_report() {
    let book = packed("treasury", "currencies");
    let plain = prints(&["report", &book]);
    let after = prints(&["report", &book, "--currencies"]);
    assert_eq!(prints(&["report", "--currencies", &book]), after);
    let table = after.strip_prefix(&format!("{plain}\n")).unwrap();
    let first: Vec<&str> = table
        .lines()
        .map(|line| line.split(' ').next().unwrap())
        .collect();
    assert_eq!(first, ["currency", "0", "1", "7", "31", "all"]);
    // Without interest rows there is no currency to list.
    let table = prints(&["report", &packed("equity", "currencies"), "--currencies"]);
    let lines: Vec<&str> = table.lines().skip(8).collect();
    let none = "all          0.000    0.000     0.000";
    assert_eq!(lines, ["currency  specific  general  together", none]);
}

/// Catches a table of a refused book.
#[test]
fn a_refused_book_has_no_currencies() {
    let bytes = fs::read(packed("treasury", "refused")).unwrap();
    let cut = temporary("refused-treasury.book");
    fs::write(&cut, &bytes[..bytes.len() - 1]).unwrap();
    let plain = fails(1, &["report", &cut]);
    assert!(plain.contains("refused 3"), "{plain}");
    assert_eq!(fails(1, &["report", &cut, "--currencies"]), plain);
}

#[test]
fn ladders_are_drawn() {
    let text = prints(&["ladder", &packed("keyed", "ladder"), "--currency", "7"]);
    let line = |words: &str| {
        let squeezed = |line: &str| line.split_whitespace().collect::<Vec<_>>().join(" ");
        assert!(
            text.lines().any(|line| squeezed(line) == words),
            "{words}\n{text}"
        );
    };
    line("1 3 181-360 181-360 0.70% 75 0");
    line("3 525.0 0.0 0.0 525.0");
    line("within zone 2 0.0 525.0 -525.0");
    line("zones 1 and 2 1 long 525.0 2 short 525.0 525.0");
    line("zones 2 and 3 2 zero 0.0 3 long 525.0 nothing");
    line("zones 1 and 2 525.0 40% 210.000");
    line("zones 2 and 3 0.0 40% 0.000");
    line("residual 525.0 100% 525.000");
    line("charge 735.000");
    line("gross 1,575.0 = 2 x 525.0 matched + 525.0 residual");
    line("residual 525.0 = 1,050.0 weighted long - 525.0 weighted short");
    line("charge 735.000 >= 525.0 residual");
    line("2 x charge 1,470.000 <= 1,575.0 gross + 525.0 residual");
    let text = prints(&["ladder", &packed("commodity", "ladder"), "--commodity", "5"]);
    assert!(text.contains(" 79,200.000\n\ngross "), "{text}");
    assert!(
        text.ends_with("  + 7,200.000 (0.6% of carried)\n"),
        "{text}"
    );
}

#[test]
fn ladders_are_refused() {
    let book = packed("keyed", "group");
    assert!(fails(1, &["ladder", &book, "--currency", "32"]).contains("refused 10"));
    assert!(fails(1, &["ladder", &book, "--commodity", "99"]).contains("refused 10"));
    assert!(fails(2, &["ladder", &book, "--currency", "x"]).contains("'x'"));
}

#[test]
fn joined_books() {
    let (one, two, both) = (
        packed("zones", "join"),
        packed("mixed", "join"),
        temporary("both.book"),
    );
    prints(&["join", &one, &two, &both]);
    let joined = fs::read(&both).unwrap();
    let (one_bytes, two_bytes) = (fs::read(&one).unwrap(), fs::read(&two).unwrap());
    assert_eq!(joined[..8], [7, 0, 3, 0, 3, 0, 2, 0]);
    assert_eq!(joined[8..56], one_bytes[8..56]);
    assert_eq!(joined[56..], two_bytes[8..]);
    let cut = temporary("cut.book");
    fs::write(&cut, &joined[..30]).unwrap();
    let error = fails(1, &["join", &one, &cut, &both]);
    assert!(
        error.contains("cut.book: refused 3 of the second book"),
        "{error}"
    );
}

#[test]
fn errors_name_the_line_or_the_row() {
    let text = temporary("wrong.csv");
    let header = "class,group,kind,days,coupon,issue,long,short";
    let wrong = "fx,1,none,0,0,0,5,0\nfx,32,none,0,0,0,5,0";
    fs::write(&text, format!("{header}\n{wrong}\n")).unwrap();
    let book = temporary("wrong.book");
    let _ = fs::remove_file(&book);
    let error = fails(1, &["pack", &text, &book]);
    assert!(
        error.contains("wrong.csv: line 3: refused 4: group over 31"),
        "{error}"
    );
    assert!(fs::metadata(&book).is_err());
    prints(&["pack", &text, &book, "--unchecked"]);
    let error = fails(1, &["report", &book]);
    assert!(
        error.contains("refused 4 row 1: group over 31\nfx row: group 32"),
        "{error}"
    );
    fs::write(&text, format!("{header}\nbond,1,none,0,0,0,5,0\n")).unwrap();
    assert!(fails(1, &["pack", &text, &book]).contains("line 2: class is 'bond'"));
}

/// Catches a broken floating-rate note that is told as a bond, or without its line or row.
#[test]
fn a_broken_note_names_its_two_maturities() {
    let (text, book) = (temporary("note.csv"), temporary("note.book"));
    let good = fs::read_to_string(sample("floating")).unwrap();
    fs::write(&text, good.replace(",360,720,", ",361,720,")).unwrap();
    let why = "fixing over 360 days, or final maturity over 36,000 or before fixing";
    let error = fails(1, &["pack", &text, &book]);
    let line = format!("note.csv: line 4: refused 15: {why}");
    assert!(error.contains(&line), "{error}");
    prints(&["pack", &text, &book, "--unchecked"]);
    let told = format!(
        "note.book: refused 15 row 2: {why}\ninterest row: group 7, kind floating, \
         days to fixing 361, final maturity 720, issue 0, long 500, short 0; "
    );
    for words in [
        &["report", &book][..],
        &["report", &book, "--currencies"],
        &["ladder", &book, "--currency", "7"],
        &["ladder", &book, "--commodity", "7"],
        &least_trade(&book, "7 5 short 1"),
    ] {
        let error = fails(1, words);
        assert!(error.contains(&told), "{error}");
    }
    let (keyed, out) = (packed("keyed", "note"), temporary("note-joined.book"));
    let error = fails(1, &["join", &keyed, &book, &out]);
    assert!(
        error.contains("note.book: refused 15 row 2 of the second book"),
        "{error}"
    );
    // A refused row is unpacked as it is.
    let again = prints(&["unpack", &book, "-"]);
    assert_eq!(again, fs::read_to_string(&text).unwrap());
}

#[test]
fn wrong_command_lines() {
    assert!(fails(2, &[]).contains("--help"));
    assert!(fails(2, &["charge"]).contains("no command 'charge'"));
    assert!(fails(2, &["report"]).contains("report: BOOK is missing"));
    assert!(fails(2, &["report", "--all", "x"]).contains("no option '--all'"));
    assert!(fails(2, &["small-bank", "--currencies", "x"]).contains("no option '--currencies'"));
    assert!(fails(2, &["report", &temporary("no such file")]).contains("no such file"));
    assert!(fails(2, &["bench", "--rounds", "0"]).contains("must not be 0"));
}
