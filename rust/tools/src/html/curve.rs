//! The section of a least trade: the charge against the amount, and its turning points.

use super::tables::{part, row, table};
use crate::drawing;
use crate::least_trade::Answered;
use crate::markup::{element, Element};
use crate::text::{mils, whole};

/// The amounts of the drawing with their charges.
fn points(answered: &Answered) -> Element {
    let limit = i128::from(answered.asked.limit);
    let (marked, _) = answered.marked();
    let rows = answered.seen().into_iter().map(|(amount, charge)| {
        let against = if charge <= limit { "within" } else { "over" };
        let line = row([&whole(amount), &mils(charge), against]);
        match amount == marked {
            true => line.class("marked"),
            false => line,
        }
    });
    table("points", &["thousands", "charge", "the limit"], rows)
}

/// The section.
pub fn section(answered: &Answered) -> Element {
    let limit = format!("The limit is {}.", mils(answered.asked.limit));
    element("section")
        .class("ladder")
        .with("id", "trade")
        .holding(element("h2").text("The least trade within a limit"))
        .holding(element("p").class("total").text(answered.title()))
        .holding(element("p").text(limit))
        .holding(drawing::curve(answered).element())
        .all(part("Where the charge turns", points(answered)))
}
