//! The three parts of a commodity's charge, as bars of one scale.

use super::super::axis::Scale;
use super::super::shapes::{bold, rect, titled, words};
use super::super::unit::Unit;
use super::super::LONG;
use crate::ladder::commodity::{Charged, Commodity};
use crate::markup::{element, Element};
use crate::text::mils;

/// The height of all parts and of one.
pub const HEIGHT: f64 = 122.0;
const LINE: f64 = 26.0;

/// Where the bars begin, and where the longest ends; after it stands its figure.
const BEGIN: f64 = 250.0;
const END: f64 = 740.0;

/// A part: its name, its bar, and what it costs.
fn line(part: &Charged, scale: &Scale, y: f64) -> [Element; 3] {
    let cost = part.mils();
    let sum = Unit::Amount.fitted(part.sum.into(), 11);
    let name = format!("{} {sum} at {}", part.step, part.rate);
    let bar = rect([BEGIN, y - 12.0], [scale.at(cost) - BEGIN, 16.0]);
    let bar = bar.class("part").with("fill", LONG);
    [
        words([0.0, y], &name),
        titled(bar, &format!("{}: {}", part.step, mils(cost))),
        words([scale.at(cost) + 8.0, y], &Unit::Charge.fitted(cost, 16)),
    ]
}

/// The parts from the top down, and below them the charge.
pub fn charged(ladder: &Commodity, top: f64) -> Element {
    let parts = ladder.charged();
    let most = parts.iter().map(Charged::mils).max().unwrap_or(0);
    let scale = Scale::new(BEGIN, END, most);
    let lines = parts.iter().zip(1..).flat_map(|(part, at)| {
        let y = top + LINE * f64::from(at) - 8.0;
        line(part, &scale, y)
    });
    let charge = Unit::Charge.fitted(ladder.figures.charge.into(), 24);
    let last = top + LINE * 4.0 - 4.0;
    element("g")
        .class("charged")
        .all(lines)
        .holding(bold([0.0, last], "charge"))
        .holding(bold([BEGIN, last], &charge))
}
