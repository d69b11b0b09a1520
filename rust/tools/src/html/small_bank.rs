//! What a book of foreign exchange and commodities alone costs by the small bank's method.

use super::tables::{lines, part, row, table};
use crate::lines::Line;
use crate::markup::{element, Element};
use crate::text::mils;
use market_risk::SmallBank;

/// The section: the charges, and the lines by which they add up.
pub fn section(charged: &SmallBank, by: &[Line]) -> Element {
    let line = |name: &str, charge: u64| row([name, &mils(charge)]);
    let rows = [
        line("foreign exchange", charged.exchange),
        line("commodity", charged.commodity),
        line("total", charged.total).class("sum"),
    ];
    let note = "The book has no interest and no equity rows, so that a small bank may charge its \
                commodities by the simplified method: 15% of each net and 3% of each gross position.";
    element("section")
        .with("id", "small-bank")
        .holding(element("h2").text("As a small bank"))
        .holding(element("p").text(note))
        .holding(table("charges", &["charge", "currency units"], rows))
        .all(part("How it adds up", lines(by)))
}
