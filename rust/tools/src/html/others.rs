//! What a book would cost netted, offset, and netted and offset.

use crate::load::Given;
use crate::report::{doubt, explain};
use crate::{net, offset};
use books::Book;
use market_risk::{Refusal, Report, Table};

/// What is done to the book, and what is left of it costs, or why it is refused.
pub type Other = (&'static str, Result<Report, String>);

/// A way to write another book: the library's call, and the same held to the rows.
struct Way {
    name: &'static str,
    call: fn(&[u8]) -> Result<Vec<u8>, Refusal>,
    held: fn(&Given) -> Result<Vec<u8>, String>,
}

const WAYS: [Way; 3] = [
    Way {
        name: "netted",
        call: market_risk::netted,
        held: |given| net::netted(given, false),
    },
    Way {
        name: "offset",
        call: market_risk::offset_book,
        held: offset::left,
    },
    Way {
        name: "netted and offset",
        call: market_risk::net_and_offset_book,
        held: |given| net::netted(given, true),
    },
];

/// What a book that the library has written costs, or why its report cannot be.
fn charged(bytes: &[u8], table: &Table) -> Result<Report, String> {
    let refused = |refusal| format!("what the library writes is {refusal}");
    let report = market_risk::charge(bytes, table).map_err(refused)?;
    let book = Book::decode(bytes).unwrap_or_default();
    doubt(&book, &report).map_or(Ok(report), Err)
}

/// What is left of the book in each way, or a difference that the tool's checks find.
pub fn others(given: &Given, table: &Table) -> Result<Vec<Other>, String> {
    let other = |way: &Way| match (way.call)(&given.bytes) {
        Err(refusal) => Ok((way.name, Err(explain(given, &refusal)))),
        Ok(_) => Ok((way.name, Ok(charged(&(way.held)(given)?, table)?))),
    };
    WAYS.iter().map(other).collect()
}
