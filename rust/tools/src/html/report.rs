//! The charges of a book: the six with their shares, those of interest by currency, and what the
//! book would cost netted or offset.

use super::figures::Figures;
use super::tables::{cell, part, row, table};
use crate::drawing::share;
use crate::markup::{element, Element};
use crate::report::used;
use crate::text::{mils, places, whole};
use market_risk::Report;

/// A charge as a part of the total, in tenths of a per cent, rounded.
fn per_cent(charge: u64, total: u64) -> String {
    let (charge, total) = (i128::from(charge), i128::from(total));
    match total {
        0 => "–".into(),
        _ => places((2_000 * charge + total) / (2 * total), 1) + "%",
    }
}

/// The six charges and the total.
fn charges(report: &Report) -> Element {
    let line = |(name, charge): (&str, u64)| {
        let cells = [name.into(), mils(charge), per_cent(charge, report.total)];
        let bar = element("td").class("bar");
        let line = row(cells).holding(bar.holding(share(charge, report.total)));
        match name {
            "total" => line.class("sum"),
            _ => line,
        }
    };
    let titles = ["charge", "currency units", "share", ""];
    table("charges", &titles, report.named().map(line))
}

/// The two interest charges of each currency that has interest rows.
fn currencies(figures: &Figures) -> Element {
    let report = &figures.report;
    let line = |name: String, [specific, general]: [u64; 2]| {
        let figures = [specific, general, specific + general].map(mils);
        row([name].into_iter().chain(figures))
    };
    let groups = used(&figures.book).into_iter();
    let lines = groups.map(|group| {
        let name = group.to_string();
        line(name, [report.specifics[group], report.generals[group]])
    });
    let all = [report.interest_specific, report.interest_general];
    let all = line("all".into(), all).class("sum");
    let titles = ["currency", "specific", "general", "together"];
    table("currencies", &titles, lines.chain([all]))
}

/// What the book would cost netted, offset, and both; or why it cannot be.
fn others(figures: &Figures) -> Element {
    let total = i128::from(figures.report.total);
    let lines = figures.others.iter().map(|(name, other)| match other {
        Ok(report) => {
            let more = mils(i128::from(report.total) - total);
            row([*name, &whole(report.taken), &mils(report.total), &more])
        }
        Err(why) => {
            let why = cell(why).class("words").with("colspan", 3);
            row([*name]).holding(why)
        }
    });
    let titles = ["the book", "rows", "total", "more or less"];
    table("others", &titles, lines)
}

/// The section of the report.
pub fn section(figures: &Figures) -> Element {
    let total = format!("total {}", mils(figures.report.total));
    let charges = element("div")
        .holding(charges(&figures.report))
        .all(part("Netted or offset first", others(figures)));
    let interest = !figures.book.classes[0].is_empty();
    let by_currency = interest.then(|| {
        let part = part("Interest by currency", currencies(figures));
        element("div").class("currencies").all(part)
    });
    let beside = element("div").class("beside").holding(charges);
    element("section")
        .with("id", "report")
        .holding(element("h2").text("The charges"))
        .holding(element("p").class("total").text(total))
        .holding(beside.all(by_currency))
}
