//! The page of a book: its charges are those that `report`, `small-bank`, `net` and `offset` print.

mod common;
mod page;

use common::{packed, prints, temporary};
use page::joined;
use page::samples::{lines, page, SAMPLES};

/// Catches a charge that is another than the report's, in another place, or left out; and a currency
/// that is left out or too many.
#[test]
fn the_charges_are_those_of_the_report() {
    for sample in SAMPLES {
        let book = packed(sample, "html-charges");
        let page = page(&book);
        let report = page.section("report").unwrap();
        let charges = report.cells("charges");
        let shown: Vec<String> = charges.iter().map(|cells| joined(&cells[..2])).collect();
        assert_eq!(shown, lines(&["report", &book]), "{sample}");
        let printed = lines(&["report", &book, "--currencies"]);
        let printed = &printed[shown.len() + 2..];
        match printed.len() {
            1 => assert!(report.classed("currencies").is_empty(), "{sample}"),
            _ => {
                let shown = report.cells("currencies");
                let shown: Vec<String> = shown.iter().map(|cells| joined(cells)).collect();
                assert_eq!(shown, printed, "{sample}");
            }
        }
    }
}

/// Catches a share or a bar that is not the part of the total that its charge is.
#[test]
fn bars_are_as_long_as_their_shares() {
    let page = page(&packed("mixed", "html-shares"));
    let report = page.section("report").unwrap();
    let mils = |text: &str| -> f64 { text.replace([',', '.'], "").parse().unwrap() };
    let charges = report.cells("charges");
    let total = mils(&charges[6][1]);
    let bars = report.classed("share");
    assert_eq!(bars.len(), 7);
    for (cells, bar) in charges.iter().zip(bars) {
        let share = 100.0 * mils(&cells[1]) / total;
        assert_eq!(cells[2], format!("{share:.1}%"));
        let drawn = bar.named("rect")[0].number("width");
        assert!((drawn - share).abs() < 0.001, "{cells:?}: {drawn}");
    }
}

/// Catches a ladder that is left out, and one of a group without rows.
#[test]
fn each_group_with_rows_has_a_section() {
    let book = packed("treasury", "html-groups");
    let page = page(&book);
    let ids: Vec<&str> = page
        .named("section")
        .iter()
        .map(|section| section.get("id"))
        .collect();
    let expected = [
        "report",
        "currency-0",
        "currency-1",
        "currency-7",
        "currency-31",
    ];
    assert_eq!(ids, expected);
    let links: Vec<&str> = page
        .named("a")
        .iter()
        .map(|link| link.get("href"))
        .collect();
    assert_eq!(
        links,
        ["#currency-0", "#currency-1", "#currency-7", "#currency-31"]
    );
}

/// Catches a total of a netted or offset book that is not that book's report.
#[test]
fn other_totals_are_those_of_the_written_books() {
    for sample in ["netting", "offsetting", "order-together", "mixed"] {
        let book = packed(sample, "html-others");
        let page = page(&book);
        let others = page.section("report").unwrap().cells("others");
        let out = temporary(&format!("html-others-{sample}.out"));
        let ways: [&[&str]; 3] = [&["net"], &["offset"], &["net", "--offset"]];
        assert_eq!(others.len(), ways.len());
        for (way, cells) in ways.iter().zip(&others) {
            let words = [way, &[book.as_str(), out.as_str()][..]].concat();
            prints(&words);
            let total = lines(&["report", &out])[6].clone();
            assert_eq!(
                format!("total {}", cells[2]),
                total,
                "{sample} {}",
                cells[0]
            );
            let rows = prints(&["unpack", &out, "-"]).lines().count() - 1;
            assert_eq!(cells[1], rows.to_string(), "{sample} {}", cells[0]);
        }
    }
}

/// Catches an issue that cannot be netted and is not told, or stops the page.
#[test]
fn what_cannot_be_netted_is_told() {
    let rows = [
        "interest,7,qualifying,1080,800,5,100,0",
        "interest,7,qualifying,1079,800,5,0,40",
    ];
    let book = common::book("html-unlike", &rows);
    let page = page(&book);
    let others = page.section("report").unwrap().cells("others");
    for (at, names_row) in [(0, true), (1, false), (2, true)] {
        let told = others[at][1].starts_with("refused 13 row 1: ");
        assert_eq!(told, names_row, "{others:?}");
    }
    assert!(others[0][1].contains("row 0, the first of issue 5, has days 1,080"));
}

/// Catches a small bank's charges that are others than the command's, or are shown of another book.
#[test]
fn a_small_bank_has_its_charges() {
    let book = packed("small-bank", "html-small");
    let page_of_bank = page(&book);
    let section = page_of_bank.section("small-bank").unwrap();
    let printed = lines(&["small-bank", &book]);
    let charges = section.cells("charges");
    assert_eq!(charges.len(), 3);
    for cells in charges.iter().chain(&section.cells("lines")) {
        assert!(printed.contains(&joined(cells)), "{cells:?}");
    }
    assert!(page(&packed("mixed", "html-small"))
        .section("small-bank")
        .is_none());
    assert!(page(&packed("equity", "html-small"))
        .section("small-bank")
        .is_none());
}
