//! The lines of reports, ladders, least trades, small banks and options calculated again, from document 01's bands, a table's
//! weights and per cents, and the second calculation. Nothing here is the command's own code.
#![allow(dead_code)]

mod commodity;
mod interest;
mod least_trade;
mod options;
mod small_bank;

use books::{Book, Row};
use std::collections::BTreeSet;

pub use commodity::commodity;
pub use interest::interest;
pub use least_trade::{least_trade, Short};
pub use options::options;
pub use small_bank::small_bank;

/// A number of which so many digits are decimal places, with thousands separators.
pub fn decimal(value: i128, places: usize) -> String {
    let digits = format!("{:0width$}", value.unsigned_abs(), width = places + 1);
    let (whole, rest) = digits.split_at(digits.len() - places);
    let threes = whole.as_bytes().rchunks(3).rev();
    let threes: Vec<&str> = threes.map(|d| std::str::from_utf8(d).unwrap()).collect();
    let sign = if value < 0 { "-" } else { "" };
    let point = if places > 0 { "." } else { "" };
    format!("{sign}{}{point}{rest}", threes.join(","))
}

/// An amount, in thousands.
pub fn amount(value: i128) -> String {
    decimal(value, 0)
}

/// A charge in mils, of which 1,000 are a currency unit.
pub fn mils(value: impl Into<i128>) -> String {
    decimal(value.into(), 3)
}

/// The longs and the shorts of rows.
pub fn sides<'a>(rows: impl Iterator<Item = &'a Row>) -> (i128, i128) {
    rows.fold((0, 0), |(long, short), row| {
        (long + i128::from(row.long), short + i128::from(row.short))
    })
}

/// The days of a band, found day by day; a dash where no day lies in it.
pub fn span(band_of: impl Fn(i128) -> usize, band: usize) -> String {
    let days: Vec<i128> = (0..=36_000).filter(|day| band_of(*day) == band).collect();
    match (days.first(), days.last()) {
        (Some(first), Some(36_000)) => format!("over {}", amount(first - 1)),
        (Some(first), Some(last)) => format!("{}-{}", amount(*first), amount(*last)),
        _ => "-".into(),
    }
}

/// The lines above the figures under a loaded table.
pub fn note(name: &str, table: &[u8]) -> Vec<String> {
    let table = second::read_table(table).unwrap();
    let weights = table.weights.map(|weight| weight.to_string()).join(" ");
    let [zone_1, zone_2, zone_3] = table.zones;
    let (vertical, adjacent, between) = (table.vertical, table.adjacent, table.zones_1_3);
    let zones = format!("zone-1 {zone_1}, zone-2 {zone_2}, zone-3 {zone_3}");
    vec![
        format!("under {name}, not document 01's table:"),
        format!("weights {weights}"),
        format!("vertical {vertical}, {zones}, adjacent {adjacent}, zones-1-3 {between}"),
        "".into(),
    ]
}

/// The lines of a report.
pub fn report(book: &[u8], table: &[u8]) -> Vec<String> {
    let report = second::charge(book, table);
    let lines = [
        ("interest specific", report.interest_specific),
        ("interest general", report.interest_general),
        ("equity specific", report.equity_specific),
        ("equity general", report.equity_general),
        ("foreign exchange", report.exchange),
        ("commodity", report.commodity),
        ("total", report.total),
    ];
    let line = |(name, value): (&str, u64)| format!("{name} {}", mils(value));
    lines.map(line).to_vec()
}

/// The two interest charges of a book of some interest rows, and nothing else.
fn interest_charges(rows: Vec<Row>, table: &[u8]) -> [u64; 2] {
    let mut book = Book::default();
    book.classes[0] = rows;
    let report = second::charge(&book.encode().unwrap(), table);
    [report.interest_specific, report.interest_general]
}

/// The lines of a report with its currencies: each is charged as a book of its own, and the
/// last line is that of the whole book.
pub fn currencies(book: &Book, table: &[u8]) -> Vec<String> {
    let rows = &book.classes[0];
    let line = |name: String, rows: Vec<Row>| {
        let [specific, general] = interest_charges(rows, table);
        let figures = [specific, general, specific + general].map(mils);
        format!("{name} {}", figures.join(" "))
    };
    let own = |group: u8| {
        rows.iter()
            .filter(|row| row.group == group)
            .copied()
            .collect()
    };
    let groups: BTreeSet<u8> = rows.iter().map(|row| row.group).collect();
    let mut lines = report(&book.encode().unwrap(), table);
    lines.extend(["".into(), "currency specific general together".into()]);
    lines.extend(
        groups
            .into_iter()
            .map(|group| line(group.to_string(), own(group))),
    );
    lines.push(line("all".into(), rows.clone()));
    lines
}
