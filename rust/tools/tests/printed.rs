//! Everything that is printed of the samples, against the texts in samples/expected.

mod again;
mod common;
mod pocket;
mod stored;

use common::{packed, prints, temporary};
use pocket::unfolded;
use std::collections::BTreeSet;
use std::fs;
use stored::{all, names, samples, Print, Stored};

/// Catches a stored text that no sample has, and a sample that is not looked at.
#[test]
fn every_print_is_stored_and_nothing_else() {
    let wanted: BTreeSet<String> = all().iter().map(Stored::name).collect();
    assert_eq!(names(&format!("{}/expected", samples()), ".txt"), wanted);
    assert_eq!(wanted.len(), 68);
    assert_eq!(
        names(&samples(), ".table"),
        BTreeSet::from(["steps".into()])
    );
}

/// Catches any change of what is printed: a rate halved, a per cent, a weight, a figure.
#[test]
fn the_command_prints_the_stored_texts() {
    for stored in all() {
        assert_eq!(stored.printed(), stored.text(), "{}", stored.name());
    }
}

/// Catches a stored text that was taken from a wrong command: each line is calculated
/// again from document 01, word by word and number by number.
#[test]
fn every_line_of_the_stored_texts_is_calculated_again() {
    let squeezed = |line: &str| line.split_whitespace().collect::<Vec<_>>().join(" ");
    for stored in all() {
        let text = unfolded(&stored.text());
        let lines: Vec<String> = text.lines().map(squeezed).collect();
        assert_eq!(lines, stored.again(), "{}", stored.name());
    }
}

/// The totals and charges, worked by hand in document 01 and in samples/README.md.
const BY_HAND: [(&str, &str); 59] = [
    ("empty.report", "0.000"),
    ("swap.report", "4,793,392.500"),
    ("swap.currency-7", "4,580,112.500"),
    ("zones.report", "735.000"),
    ("zones.currency-7", "735.000"),
    ("zones.least-trade", "735.000"),
    ("keyed.currency-7", "735.000"),
    ("join-a.currency-7", "210.000"),
    ("join-b.currency-7", "210.000"),
    ("joined.currency-7", "577.500"),
    ("commodity.commodity-5", "79,200.000"),
    ("fx.report", "26,800.000"),
    ("equity.report", "13,600.000"),
    ("mixed.currency-1", "92,000.000"),
    ("mixed.currency-2", "242,500.000"),
    ("mixed.report", "1,109,700.000"),
    ("steps.currency-7", "694.650"),
    ("steps.currency-8", "172.350"),
    ("steps.currency-9", "6,156.500"),
    ("steps.commodity-5", "3,276.000"),
    ("steps.report", "20,601.000"),
    ("steps.currencies", "17,325.000"),
    ("mixed.currencies", "814,500.000"),
    ("treasury.currency-1", "0.000"),
    ("treasury.currency-7", "735.000"),
    ("treasury.currency-31", "3,270.000"),
    ("treasury.report", "44,005.000"),
    ("treasury.currencies", "24,005.000"),
    ("floating.currency-7", "38,140.000"),
    ("floating.report", "76,140.000"),
    ("steps.table.currency-7", "921.900"),
    ("steps.table.currency-8", "282.400"),
    ("steps.table.currency-9", "7,823.000"),
    ("steps.table.currencies", "19,328.800"),
    ("steps.table.report", "22,604.800"),
    ("empty.small-bank", "0.000"),
    ("fx.small-bank", "26,800.000"),
    ("commodity.small-bank", "120,000.000"),
    ("small-bank.small-bank", "136,800.000"),
    ("small-bank.report", "132,000.000"),
    ("small-bank.commodity-0", "2,880.000"),
    ("small-bank.commodity-4", "27,600.000"),
    ("small-bank.commodity-9", "22,320.000"),
    ("netting.report", "14,585.000"),
    ("netting.currency-7", "1,145.000"),
    ("netted.report", "6,831.000"),
    ("netted.currency-7", "1,071.000"),
    ("offsetting.report", "2,737.000"),
    ("offsetting.currency-7", "817.000"),
    ("offset.report", "2,732.000"),
    ("offset.currency-7", "812.000"),
    ("order-shared.report", "875.000"),
    ("order-shared.currency-7", "875.000"),
    ("order-together.report", "175.000"),
    ("order-together.currency-7", "175.000"),
    ("spreadsheet.report", "132,225.000"),
    ("spreadsheet.currency-7", "775.000"),
    ("spreadsheet.commodity-5", "93,000.000"),
    ("options.options", "2,780,250.000"),
];

/// Catches a stored charge that both calculations would have wrong.
#[test]
fn the_charges_are_those_worked_by_hand() {
    let all = all();
    for (name, expected) in BY_HAND {
        let stored = all.iter().find(|stored| stored.name() == name).unwrap();
        let text = stored.text();
        let title = match stored.print {
            Print::Options | Print::Report | Print::SmallBank => "total",
            Print::Currencies => "all",
            Print::Currency(_) | Print::Commodity(_) | Print::LeastTrade => "charge",
        };
        // The charge of a ladder and a small bank's total come again in the last lines.
        let line = text.lines().find(|line| line.starts_with(title)).unwrap();
        assert_eq!(line.split_whitespace().last(), Some(expected), "{name}");
    }
}

/// The charges of each currency of two samples, in whole currency units unless it is shown,
/// worked by hand in samples/README.md: specific, general, together.
const CURRENCIES_BY_HAND: [(&str, &[&str]); 3] = [
    (
        "treasury",
        &[
            "0 0 0 0",
            "1 16,000 0 16,000",
            "7 0 735 735",
            "31 4,000 3,270 7,270",
            "all 20,000 4,005 24,005",
        ],
    ),
    (
        "steps",
        &[
            "7 0 694.650 694.650",
            "8 701.500 172.350 873.850",
            "9 9,600 6,156.500 15,756.500",
            "all 10,301.500 7,023.500 17,325",
        ],
    ),
    (
        "steps.table",
        &[
            "7 0 921.900 921.900",
            "8 701.500 282.400 983.900",
            "9 9,600 7,823 17,423",
            "all 10,301.500 9,027.300 19,328.800",
        ],
    ),
];

/// Catches a stored charge of a currency that both calculations would have wrong, and a
/// plain report that has more than its seven lines.
#[test]
fn the_currencies_are_those_worked_by_hand() {
    let all = all();
    let stored = |name: String| {
        let found = all.iter().find(|stored| stored.name() == name);
        found.unwrap().text()
    };
    for (name, expected) in CURRENCIES_BY_HAND {
        let text = stored(format!("{name}.currencies"));
        let (report, table) = text.rsplit_once("\n\n").unwrap();
        assert_eq!(format!("{report}\n"), stored(format!("{name}.report")));
        let above = if name.ends_with(".table") { 4 } else { 0 };
        assert_eq!(report.lines().count(), above + 7);
        let short = |line: &str| {
            let cells = line.split_whitespace();
            let cells: Vec<&str> = cells.map(|cell| cell.trim_end_matches(".000")).collect();
            cells.join(" ")
        };
        let lines: Vec<String> = table.lines().skip(1).map(short).collect();
        assert_eq!(lines, expected, "{name}");
    }
}

/// Catches a joined sample that is not the join of E4's two books.
#[test]
fn e4_is_stored_as_it_is_joined() {
    let (a, b) = (packed("join-a", "e4"), packed("join-b", "e4"));
    let joined = temporary("e4.book");
    prints(&["join", &a, &b, &joined]);
    let expected = fs::read(packed("joined", "e4")).unwrap();
    assert_eq!(fs::read(&joined).unwrap(), expected);
}

/// Holds what a command writes of one sample to another sample, its bytes and its text.
fn writes(command: &str, from: &str, to: &str) {
    let (book, out) = (
        packed(from, command),
        temporary(&format!("{to}-sample.book")),
    );
    prints(&[command, &book, &out]);
    let expected = fs::read(packed(to, command)).unwrap();
    assert_eq!(fs::read(&out).unwrap(), expected);
    let text = fs::read_to_string(format!("{}/{to}.csv", samples())).unwrap();
    assert_eq!(prints(&["unpack", &out, "-"]), text);
}

/// Catches a netted sample that is not the netted book of the other, and one without its
/// offsetting legs that is not the other's.
#[test]
fn written_samples_are_stored_as_they_are_written() {
    writes("net", "netting", "netted");
    writes("offset", "offsetting", "offset");
}
