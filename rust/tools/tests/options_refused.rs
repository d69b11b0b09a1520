//! Option tables that are refused, files that are none, and wrong command lines.

mod common;
mod option_tables;

use common::{book, fails, prints, sample, temporary};
use option_tables::{csv, packed_options, HEADER};
use std::fs;

/// The reasons of 16 and 17.
const SIXTEEN: &str =
    "more than 1,000 options, or the length is not 2 bytes plus 18 for each option counted";
const SEVENTEEN: &str = "a field of the option out of its range";

/// An option of each class that is accepted.
const SHARE: &str = "equity,3,sold call,ordinary,2350,4125,210,6,2250,0";
const STOCK: &str = "commodity,4,sold call,none,25000,7210,170,84,2000,1081";

/// Fields of the two that are changed, and what is told of them.
const BROKEN: [(&str, &str, &str, &str); 14] = [
    (
        SHARE,
        "equity,3,sold call,ordinary",
        "1,3,sold call,1",
        "class may be equity (2), fx (3), commodity (4)",
    ),
    (
        SHARE,
        "equity,3,sold call,ordinary",
        "5,3,sold call,1",
        "class may be equity (2), fx (3), commodity (4)",
    ),
    (SHARE, ",3,", ",32,", "group may be 0 to 31"),
    (
        SHARE,
        "sold call",
        "4",
        "right may be bought call (0), bought put (1), sold call (2), sold put (3)",
    ),
    (
        SHARE,
        "ordinary",
        "0",
        "kind may be ordinary (1), diversified (2), index (3)",
    ),
    (
        SHARE,
        "ordinary",
        "4",
        "kind may be ordinary (1), diversified (2), index (3)",
    ),
    (STOCK, "none", "1", "kind may be none (0)"),
    (SHARE, ",2350,", ",0,", "amount may be 1 to 1,000,000"),
    (SHARE, ",2350,", ",1000001,", "amount may be 1 to 1,000,000"),
    (SHARE, ",4125,", ",10001,", "delta may be 0 to 10,000"),
    (SHARE, ",2250,0", ",2250,1", "days must be 0"),
    (STOCK, ",1081", ",36001", "days may be 0 to 36,000"),
    (
        SHARE,
        ",2350,4125,",
        ",0,65535,",
        "amount may be 1 to 1,000,000; delta may be 0 to 10,000",
    ),
    (
        STOCK,
        "commodity,4,sold call,none,25000",
        "fx,4,sold call,none,25000",
        "days must be 0",
    ),
];

/// Catches a refusal without its row or line, its fields, or what these may be; in bytes and in text, by
/// each command.
#[test]
fn every_field_out_of_its_range_is_told() {
    let out = temporary("refused.deltas");
    for (line, from, to, may) in BROKEN {
        assert!(line.contains(from), "{from}");
        let bad = line.replacen(from, to, 1);
        let text = csv("refused", &[SHARE, STOCK, "", &bad, SHARE]);
        let bytes = temporary("refused.options");
        prints(&["pack", "--options", &text, &bytes, "--unchecked"]);
        fs::write(&out, "old").unwrap();
        let told = fails(1, &["options", &bytes, "-o", &out]);
        let begin = format!("market-risk: {bytes}: refused 17 row 2: {SEVENTEEN}\noption: class ");
        assert!(told.starts_with(&begin), "{told}");
        assert!(told.ends_with(&format!("; {may}\n")), "{told}");
        let words = told.strip_prefix(&begin).unwrap();
        // The same words of text, with the line that the option stands on.
        let by_text =
            format!("market-risk: {text}: line 5: refused 17: {SEVENTEEN}\noption: class {words}");
        assert_eq!(fails(1, &["options", &text, "-o", &out]), by_text);
        assert_eq!(fails(1, &["pack", "--options", &text, &out]), by_text);
        assert_eq!(fs::read(&out).unwrap(), b"old");
    }
}

/// The fields of an option as they are told, with separators.
#[test]
fn an_option_is_told_with_all_its_fields() {
    let text = csv("fields", &["fx,32,sold put,none,1000000,0,65535,84,2000,0"]);
    let told = fails(1, &["options", &text]);
    let option =
        "option: class fx, group 32, right sold put, kind none, amount 1,000,000, delta 0, \
                  gamma 65,535, vega 84, volatility 2,000, days 0; group may be 0 to 31\n";
    assert!(told.ends_with(option), "{told}");
}

/// Catches 17 before 16, and a table that is refused without its numbers.
#[test]
fn counts_and_lengths_are_told() {
    let good = fs::read(packed_options("counts")).unwrap();
    let bad = temporary("bad.options");
    let many = [&[0xe9, 0x03], &[255; 18 * 1_001][..]].concat();
    let which = "the table counts 10 options, which have 182 bytes, and has";
    let begins = format!("the text of a table begins with the line {HEADER}");
    for (bytes, words) in [
        (vec![], format!("the file is empty; {begins}")),
        (
            vec![1],
            format!("the table has 1 bytes, and its count alone has 2; {begins}"),
        ),
        (good[..181].to_vec(), format!("{which} 181")),
        ([&good[..], &[0]].concat(), format!("{which} 183")),
        (
            many,
            "the table counts 1,001 options, and 1,000 are the most".to_string(),
        ),
    ] {
        fs::write(&bad, &bytes).unwrap();
        let told = fails(1, &["options", &bad]);
        let expected = format!("market-risk: {bad}: refused 16: {SIXTEEN}\n{words}\n");
        assert_eq!(told, expected);
    }
    let text = csv("many", &vec![STOCK; 1_001]);
    let told = fails(1, &["options", &text]);
    let words = "the table counts 1,001 options, and 1,000 are the most";
    let expected = format!("market-risk: {text}: line 1002: refused 16: {SIXTEEN}\n{words}\n");
    assert_eq!(told, expected);
    // Without a count that fits there is nothing to show, nor of more options than are read.
    fs::write(&bad, &good[..181]).unwrap();
    let told = fails(1, &["unpack", "--options", &bad, "-"]);
    assert!(told.ends_with(&format!("refused 16: {SIXTEEN}\n{which} 181\n")));
    prints(&["pack", "--options", "--unchecked", &text, &bad]);
    let told = fails(1, &["unpack", "--options", &bad, "-"]);
    assert!(told.ends_with(&format!("refused 16: {SIXTEEN}\n{words}\n")));
}

/// Catches text that is taken for a table, and lines that are not told.
#[test]
fn text_that_is_no_option_table_is_told() {
    let header = format!("the columns are {}\n", HEADER.replace(',', ", "));
    let (book_text, out) = (sample("keyed"), temporary("none.options"));
    let told = fails(1, &["options", &book_text]);
    let begin = format!("market-risk: {book_text}: line 1: 'coupon' is no column; ");
    assert!(
        told.starts_with(&begin) && told.ends_with(&header),
        "{told}"
    );
    assert_eq!(fails(1, &["pack", "--options", &book_text, &out]), told);
    assert_eq!(fails(1, &["unpack", "--options", &book_text, &out]), told);
    let wrong = csv("wrong", &[STOCK, &STOCK.replace("7210", "0.721")]);
    let told = fails(1, &["options", &wrong]);
    let why = "line 3: delta is '0.721': decimals are not taken; \
               write it in ten-thousandths: 0.721 is 7210\n";
    assert_eq!(told, format!("market-risk: {wrong}: {why}"));
    // Each of two sorts of text is no other's.
    let told = fails(1, &["pack", &sample("options"), &out]);
    assert!(told.contains("line 1: 'right' is no column; "), "{told}");
    let odd = temporary("odd-letters.csv");
    fs::write(&odd, [HEADER.as_bytes(), b"\ncaf\xe9\n"].concat()).unwrap();
    let told = fails(1, &["options", &odd]);
    assert!(told.ends_with("odd-letters.csv: line 2: not UTF-8 text; save it as CSV UTF-8\n"));
    // A book is no option table: by its first two bytes it counts no options or others.
    let share = book("no-options", &["equity,3,ordinary,0,0,0,5,0"]);
    assert!(fails(1, &["options", &share]).contains("refused 16: "));
}

#[test]
fn wrong_command_lines() {
    let options = sample("options");
    assert!(fails(2, &["options"]).contains("options: TABLE is missing"));
    assert!(fails(2, &["options", &options, &options]).contains("one file too many"));
    assert!(fails(2, &["options", &options, "-o"]).contains("-o wants a value"));
    assert!(fails(2, &["options", &options, "--table", "x"]).contains("no option '--table'"));
    assert!(fails(2, &["options", &temporary("none at all")]).contains("none at all: "));
    for to in ["-", "/dev/stdout"] {
        let told = fails(2, &["options", &options, "-o", to]);
        assert!(told.contains("options: -o is standard output"), "{told}");
    }
    let folder = temporary("no-such-folder/options.deltas");
    assert!(fails(2, &["options", &options, "-o", &folder]).contains("options.deltas: "));
    let help = prints(&["options", "--help"]);
    assert!(help.starts_with("market-risk options TABLE [-o FILE [--csv]]\n"));
    assert!(help.contains(HEADER) && prints(&["pack", "--help"]).contains(HEADER));
}
