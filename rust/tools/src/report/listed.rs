//! The charges of a book as JSON and as CSV.

use super::currencies::used;
use crate::json::Json;
use crate::table;
use books::Book;
use market_risk::{Report, Table};

/// The charges by name, as the keys of JSON and the first column of CSV have them.
fn keyed(report: &Report) -> [(&'static str, u64); 7] {
    [
        ("interest_specific", report.interest_specific),
        ("interest_general", report.interest_general),
        ("equity_specific", report.equity_specific),
        ("equity_general", report.equity_general),
        ("foreign_exchange", report.exchange),
        ("commodity", report.commodity),
        ("total", report.total),
    ]
}

/// The report, with the charges of each currency that has interest rows.
pub fn json(book: &Book, report: &Report, under: &Table) -> Json {
    let charges = keyed(report).map(|(name, value)| (name, value.into()));
    let currency = |group: usize| {
        Json::Object(vec![
            ("currency", (group as u64).into()),
            ("specific_mils", report.specifics[group].into()),
            ("general_mils", report.generals[group].into()),
        ])
    };
    let currencies = used(book).into_iter().map(currency).collect();
    Json::Object(vec![
        ("rows", report.taken.into()),
        ("table", table::json(under)),
        ("charges_mils", Json::Object(charges.into())),
        ("currencies", Json::List(currencies)),
    ])
}

/// The same as lines: the charges of the book, which have no currency, and then of each currency.
pub fn csv(book: &Book, report: &Report) -> String {
    let mut text = String::from("charge,currency,mils\n");
    for (name, value) in keyed(report) {
        text += &format!("{name},,{value}\n");
    }
    for group in used(book) {
        let (specific, general) = (report.specifics[group], report.generals[group]);
        text += &format!("interest_specific,{group},{specific}\n");
        text += &format!("interest_general,{group},{general}\n");
    }
    text
}
