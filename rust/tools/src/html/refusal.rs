//! A refused book, explained.

use super::tables::{plain, row};
use crate::load::Given;
use crate::markup::{element, Element};
use crate::report::explain;
use market_risk::Refusal;

/// The facts of a refusal, each with its name.
fn facts(given: &Given, refusal: &Refusal) -> Vec<[String; 2]> {
    let fact = |name: &str, fact: &str| [name.to_string(), fact.to_string()];
    let place = match given.line_of(refusal) {
        Some(line) => Some(fact("line", &line.to_string())),
        None if refusal.names_row() => Some(fact("row, counted from 0", &refusal.row.to_string())),
        None => None,
    };
    let mut facts = vec![
        fact("number", &refusal.number.to_string()),
        fact("reason", refusal.reason()),
    ];
    facts.extend(place);
    let told = explain(given, refusal);
    let more = told.lines().skip(1).flat_map(|line| line.split("; "));
    let names = ["what was found", "what is allowed"];
    facts.extend(names.iter().zip(more).map(|(name, more)| fact(name, more)));
    facts
}

/// The section.
pub fn section(given: &Given, refusal: &Refusal) -> Element {
    let note =
        "Nothing of a refused book is charged. The first fault in the order of the refusals \
                is told; market-risk shortest writes the shortest file that shows it.";
    element("section")
        .with("id", "refused")
        .holding(element("h2").text("The book is refused"))
        .holding(element("p").class("refused").text(given.refused(refusal)))
        .holding(plain("facts", facts(given, refusal).iter().map(row)))
        .holding(element("p").class("note").text(note))
}
