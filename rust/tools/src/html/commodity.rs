//! The section of a commodity: its ladder drawn and as tables.

use super::tables::{lines, part, row, table};
use crate::drawing;
use crate::ladder::bands::{span, COMMODITY};
use crate::ladder::commodity::Commodity;
use crate::markup::{element, Element};
use crate::text::{mils, whole};

/// The table of bands.
fn bands(ladder: &Commodity) -> Element {
    let titles = [
        "band",
        "days",
        "long",
        "short",
        "carried in",
        "matched",
        "net",
    ];
    let rows = ladder.bands.iter().enumerate().map(|(number, band)| {
        let sides = [band.long, band.short, band.carried_in];
        let names = [number.to_string(), span(&COMMODITY, number)];
        let amounts = sides.into_iter().chain([band.matched, band.net]);
        let line = row(names.into_iter().chain(amounts.map(whole)));
        match sides == [0; 3] {
            true => line.class("none"),
            false => line,
        }
    });
    table("bands", &titles, rows)
}

/// The table of what is charged.
fn charged(ladder: &Commodity) -> Element {
    let parts = ladder.charged().into_iter().map(|part| {
        let (sum, charge) = (whole(part.sum), mils(part.mils()));
        row([part.words, &sum, part.rate, &charge])
    });
    let charge = mils(ladder.figures.charge);
    let charge = row(["charge", "", "", &charge]).class("sum");
    table(
        "steps",
        &["", "sum", "rate", "charge"],
        parts.chain([charge]),
    )
}

/// The section.
pub fn section(ladder: &Commodity) -> Element {
    let group = ladder.group;
    let note = format!(
        "Charge {}. Amounts are in thousands, charges in currency units.",
        mils(ladder.figures.charge)
    );
    element("section")
        .class("ladder")
        .with("id", format!("commodity-{group}"))
        .holding(element("h2").text(format!("Commodity {group}")))
        .holding(element("p").text(note))
        .holding(drawing::commodity(ladder).element())
        .all(part("Bands", bands(ladder)))
        .all(part("What is charged", charged(ladder)))
        .all(part("How it adds up", lines(&ladder.lines)))
}
