//! The section of a currency: its ladder drawn and as tables.

use super::tables::{cell, lines, part, row, table};
use crate::drawing;
use crate::ladder::bands::{span, LOW_COUPON, ORDINARY, ZONES};
use crate::ladder::interest::Interest;
use crate::ladder::steps::Step;
use crate::markup::{element, Element};
use crate::text::{mils, places, weighted, whole};

/// A band with its amounts and weighted positions.
fn band(ladder: &Interest, zone: usize, band: usize) -> Element {
    let ((long, short), (up, down)) = (ladder.amounts[band], ladder.bands[band]);
    let line = row([
        (zone + 1).to_string(),
        band.to_string(),
        span(&ORDINARY, band),
        span(&LOW_COUPON, band),
        places(ladder.table.weights()[band], 2) + "%",
        whole(long),
        whole(short),
        weighted(up),
        weighted(down),
        weighted(up.min(down)),
        weighted(up - down),
    ]);
    match (ZONES[zone].start == band, long == 0 && short == 0) {
        (true, true) => line.class("first none"),
        (true, false) => line.class("first"),
        (false, true) => line.class("none"),
        (false, false) => line,
    }
}

/// The table of bands.
fn bands(ladder: &Interest) -> Element {
    let titles = [
        "zone",
        "band",
        "days, coupon 3% or more",
        "days, coupon below 3%",
        "weight",
        "long",
        "short",
        "weighted long",
        "weighted short",
        "matched",
        "net",
    ];
    let zones = ZONES.iter().enumerate();
    let rows = zones.flat_map(|(zone, range)| range.clone().map(move |at| band(ladder, zone, at)));
    table("bands wide", &titles, rows)
}

/// Which zone is long and which short in a match between zones that is not of nothing.
fn zones(step: &Step) -> String {
    let said = |[long, short]: [usize; 2]| {
        let (long, short) = (long + 1, short + 1);
        format!("zone {long} long, zone {short} short")
    };
    step.long_and_short().map(said).unwrap_or_default()
}

/// A step: its sides, what is matched and what that costs.
fn step(step: &Step) -> Element {
    let side = |side: Option<i128>| side.map(weighted).unwrap_or_default();
    let cells = [
        step.name.into(),
        side(step.sides.map(|sides| sides.0)),
        side(step.sides.map(|sides| sides.1)),
        weighted(step.matched),
        format!("{}%", step.per_cent),
        mils(step.matched * step.per_cent),
    ];
    row(cells).holding(cell(zones(step)).class("words"))
}

/// The table of steps, with the residual and the charge.
fn steps(ladder: &Interest) -> Element {
    let titles = [
        "step",
        "long",
        "short",
        "matched",
        "per cent",
        "disallowance",
        "",
    ];
    let residual = i128::from(ladder.figures.residual);
    let [left, cost] = [weighted(residual), mils(100 * residual)];
    let residual = row(["residual", "", "", &left, "100%", &cost, ""]);
    let charge = mils(ladder.figures.charge);
    let charge = row(["charge", "", "", "", "", &charge, ""]).class("sum");
    let rows = ladder.steps.iter().map(step);
    table("steps", &titles, rows.chain([residual, charge]))
}

/// The section, with the currency's specific charge.
pub fn section(ladder: &Interest, specific: u64) -> Element {
    let group = ladder.group;
    let note = format!(
        "General charge {}, specific charge {}. Amounts are in thousands, weighted positions and \
         charges in currency units.",
        mils(ladder.figures.charge),
        mils(specific)
    );
    element("section")
        .class("ladder")
        .with("id", format!("currency-{group}"))
        .holding(element("h2").text(format!("Currency {group}")))
        .holding(element("p").text(note))
        .holding(drawing::interest(ladder).element())
        .all(part("Bands", bands(ladder)))
        .all(part("Steps", steps(ladder)))
        .all(part("How it adds up", lines(&ladder.lines)))
}
