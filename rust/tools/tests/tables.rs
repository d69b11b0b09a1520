//! Tables as a user meets them: read in either form, written, refused, charged under.

mod common;

use common::{fails, least_trade, packed, prints, run, temporary};
use market_risk::{raw, Table};
use std::fs;

/// A file of the repository.
fn file(name: &str) -> String {
    format!("{}/../../{name}", env!("CARGO_MANIFEST_DIR"))
}

/// A file of this test run with some bytes.
fn written(name: &str, bytes: &[u8]) -> String {
    let path = temporary(name);
    fs::write(&path, bytes).unwrap();
    path
}

/// Document 01's table after a change.
fn changed(change: impl Fn(&mut [u8; 36])) -> [u8; 36] {
    let mut table = *Table::amendment().bytes();
    change(&mut table);
    table
}

/// Catches a shipped table with another figure than the library's, the second calculation's or
/// the paper's.
#[test]
fn the_shipped_table_is_document_01s() {
    let bytes = temporary("amendment.bytes");
    prints(&["table", &file("tables/amendment-1996"), "--out", &bytes]);
    let shipped = fs::read(&bytes).unwrap();
    let mut library = [0; 36];
    raw::table(&mut library);
    assert_eq!(shipped, library);
    assert_eq!(shipped, second::table());
    let weights: [u16; 15] = [
        0, 20, 40, 70, 125, 175, 225, 275, 325, 375, 450, 525, 600, 800, 1_250,
    ];
    let paper = [
        &weights.map(u16::to_le_bytes).concat()[..],
        &[10, 40, 30, 30, 40, 100],
    ];
    assert_eq!(shipped, paper.concat());
}

/// Catches a form that is not the other one, and a table that changes on its way.
#[test]
fn each_form_is_written_as_the_other() {
    let text = prints(&["table"]);
    let lines = text.lines().map(|line| line.split(' ').next().unwrap());
    let names = [
        "weights",
        "vertical",
        "zone-1",
        "zone-2",
        "zone-3",
        "adjacent",
        "zones-1-3",
    ];
    assert_eq!(lines.collect::<Vec<_>>(), names);
    assert_eq!(prints(&["table", "--text"]), text);
    let made = written("made.bytes", &changed(|table| table[30] = 9));
    let own = prints(&["table", &made]);
    assert_eq!(own, text.replace("vertical 10", "vertical 9"));
    assert_eq!(prints(&["table", &made, "--text"]), own);
    let (as_text, back) = (written("made.text", own.as_bytes()), temporary("made.back"));
    for words in [
        &["table", &as_text, "--out", &back][..],
        &["table", &as_text, "--bytes", "--out", &back],
        &["table", &made, "--bytes", "--out", &back],
    ] {
        let _ = fs::remove_file(&back);
        prints(words);
        assert_eq!(fs::read(&back).unwrap(), fs::read(&made).unwrap());
    }
    assert_eq!(
        run(&["table", "--bytes"]).stdout,
        Table::amendment().bytes()
    );
}

#[test]
fn wrong_command_lines_of_tables() {
    let table = written("line.bytes", Table::amendment().bytes());
    let told = fails(2, &["table", "--text", "--bytes"]);
    assert!(told.contains("one of --text and --bytes"), "{told}");
    let told = fails(2, &["table", &table, "--out", &table]);
    assert!(told.contains("are one file"), "{told}");
    let told = fails(2, &["table", &table, &table]);
    assert!(told.contains("is one file too many"), "{told}");
    assert!(fails(2, &["table", &temporary("no table")]).contains("no table"));
    let book = packed("commodity", "tables");
    let told = fails(2, &["ladder", &book, "--commodity", "5", "--table", &table]);
    assert!(told.contains("a commodity takes no table"), "{told}");
    let told = fails(2, &["report", "-", "--table", "-"]);
    assert!(told.contains("read once only"), "{told}");
}

/// A book and every command that takes a table.
fn takers<'a>(book: &'a str, table: &'a str) -> [Vec<&'a str>; 5] {
    let trade = least_trade(book, "7 5 short 420");
    [
        vec!["table", table],
        vec!["report", book, "--table", table],
        vec!["report", book, "--currencies", "--table", table],
        vec!["ladder", book, "--table", table, "--currency", "7"],
        [&trade[..], &["--table", table]].concat(),
    ]
}

/// Catches a refused table that is charged under, or told without its number or condition.
#[test]
fn a_refused_table_is_told_with_what_it_breaks() {
    let book = packed("keyed", "refused-table");
    let words_of_19 = "refused 19: the table's weights fall or exceed 2,000, or its per cents \
                       are out of order";
    let fall = "the weight of band 5 is 124, below band 4's 125";
    let over = "zones-1-3 is 101%, over 100%";
    let text = prints(&["table"]);
    for (name, bytes, expected) in [
        (
            "short.table",
            changed(|_| ())[..35].to_vec(),
            "refused 18: the table has not 36 bytes\nthe file has 35 bytes\n".to_string(),
        ),
        (
            "no.table",
            vec![],
            "refused 18: the table has not 36 bytes\nthe file has 0 bytes\n".to_string(),
        ),
        (
            "both.table",
            changed(|table| (table[10], table[35]) = (124, 101)).to_vec(),
            format!("{words_of_19}\n{fall}\n{over}\n"),
        ),
        (
            "text.table",
            text.replace("zones-1-3 100", "zones-1-3 101").into(),
            format!("{words_of_19}\n{over}\n"),
        ),
        (
            "line.table",
            format!("# a comment\n{text}vertical 10\n").into(),
            "line 9: nothing is wanted after zones-1-3, and here is 'vertical 10'\n".into(),
        ),
    ] {
        let table = written(name, &bytes);
        for words in takers(&book, &table) {
            let told = fails(1, &words);
            assert!(told.ends_with(&format!("{name}: {expected}")), "{told}");
        }
    }
}

/// A refused table is told before a refused book, as the library does.
#[test]
fn the_table_is_tried_before_the_book() {
    let (book, table) = (written("cut.book", &[0; 7]), written("cut.table", &[0; 35]));
    let told = fails(1, &["report", &book, "--table", &table]);
    assert!(told.contains("cut.table: refused 18"), "{told}");
    let table = written("whole.table", &[0; 36]);
    let told = fails(1, &["report", &book, "--table", &table]);
    assert!(told.contains("cut.book: refused 1"), "{told}");
}

/// Catches a table that is told of though it is document 01's, or prints another figure.
#[test]
fn document_01s_own_table_changes_nothing() {
    let book = packed("steps", "own-table");
    for table in [
        file("tables/amendment-1996"),
        written("own.bytes", Table::amendment().bytes()),
    ] {
        let [_, report, currencies, ladder, trade] = takers(&book, &table);
        assert_eq!(prints(&report), prints(&["report", &book]));
        let plain = prints(&["report", &book, "--currencies"]);
        assert_eq!(prints(&currencies), plain);
        let plain = prints(&["ladder", &book, "--currency", "7"]);
        assert_eq!(prints(&ladder), plain);
        assert_eq!(prints(&trade), prints(&least_trade(&book, "7 5 short 420")));
    }
}

/// The keyed book under a table of 1% in every band: 750, 300 and 140. Zones 1 and 2 match 300
/// at 40% and leave 450, to which zone 3 adds 140: 120 + 590 = 710.
#[test]
fn a_book_is_charged_under_a_loaded_table() {
    let (book, table) = (
        packed("keyed", "loaded"),
        written(
            "flat.table",
            &changed(|table| table[..30].copy_from_slice(&[100, 0].repeat(15))),
        ),
    );
    let text = prints(&["report", &book, "--table", &table]);
    assert!(text.starts_with("under "), "{text}");
    assert!(text.contains("flat.table, not document 01's table:\nweights 100 100 "));
    assert!(text.contains(
        "\nvertical 10, zone-1 40, zone-2 30, zone-3 30, adjacent 40, zones-1-3 100\n\n"
    ));
    assert!(text.ends_with("\ntotal              710.000\n"), "{text}");
    let text = prints(&["ladder", &book, "--currency", "7", "--table", &table]);
    assert!(text.starts_with("under "), "{text}");
    assert!(text.contains("\n\ncurrency 7: "), "{text}");
    let squeezed: Vec<&str> = text.split_whitespace().collect();
    let squeezed = squeezed.join(" ");
    for words in [
        "1 3 181-360 181-360 1.00% 75 0",
        "3 750.0 0.0 0.0 750.0",
        "zones 1 and 2 1 long 750.0 2 short 300.0 300.0",
        "zones 1 and 2 300.0 40% 120.000",
        "residual 590.0 100% 590.000 charge 710.000",
    ] {
        assert!(squeezed.contains(words), "{words}\n{text}");
    }
}
