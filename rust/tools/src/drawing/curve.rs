//! The charge of a currency against the amount that is added to a side of a band, with the limit.

use super::axis::{ticks, Scale};
use super::shapes::{bold, circle, end, line, middle, path, titled, words, Point};
use super::unit::Unit;
use super::{Drawing, FAINT, GRID, INK, LEFT, LONG, QUIET, SHORT, WIDTH};
use crate::least_trade::Answered;
use crate::markup::{element, Element};
use crate::text::{mils, whole};

/// Where the curve ends on the right; past it stands the limit.
const RIGHT: f64 = 770.0;

/// The top and the bottom of the curve, and the height of all.
const TOP: f64 = 56.0;
const BOTTOM: f64 = 316.0;
const HEIGHT: f64 = 384.0;

/// The curve and its two scales.
struct Plot<'a> {
    answered: &'a Answered<'a>,
    points: Vec<(u64, i128)>,
    across: Scale,
    up: Scale,
    most: i128,
}

impl Plot<'_> {
    /// The points that are worth seeing, on scales with room for them, and for the limit where it
    /// is not far above them.
    fn new<'a>(answered: &'a Answered<'a>) -> Plot<'a> {
        let points = answered.seen();
        let last = points.last().map_or(0, |(amount, _)| *amount);
        let highest = points.iter().map(|(_, charge)| *charge).max().unwrap_or(0);
        let limit = i128::from(answered.asked.limit);
        let most = match limit <= 2 * highest {
            true => highest.max(limit),
            false => highest,
        };
        Plot {
            answered,
            points,
            across: Scale::new(LEFT, RIGHT, last.into()),
            up: Scale::new(BOTTOM, TOP + 14.0, most),
            most,
        }
    }

    fn place(&self, (amount, charge): (u64, i128)) -> Point {
        [self.across.at(amount.into()), self.up.at(charge)]
    }

    /// The lines behind the curve, with their figures.
    fn grid(&self) -> Element {
        let last = self.points.last().map_or(0, |(amount, _)| *amount);
        let across = ticks(0, last.into(), 8).into_iter().flat_map(|amount| {
            let x = self.across.at(amount);
            let tick = line([x, BOTTOM], [x, BOTTOM + 5.0], INK);
            let shown = Unit::Amount.fitted(amount, 9);
            [tick, middle([x, BOTTOM + 20.0], &shown)]
        });
        let up = ticks(0, self.most, 5).into_iter().flat_map(|charge| {
            let y = self.up.at(charge);
            let colour = if charge == 0 { INK } else { GRID };
            let shown = Unit::Charge.tick(charge);
            [
                line([LEFT, y], [RIGHT, y], colour),
                end([LEFT - 8.0, y + 4.0], &shown),
            ]
        });
        element("g").class("grid").all(up).all(across)
    }

    /// The limit as a line, or that it is far above the curve.
    fn limit(&self) -> Element {
        let limit = i128::from(self.answered.asked.limit);
        let group = titled(
            element("g").class("limit"),
            &format!("limit {}", mils(limit)),
        );
        let shown = Unit::Charge.fitted(limit, 14);
        if limit > self.most {
            let above = format!("the limit, {shown}, is above this drawing");
            return group.holding(end([RIGHT, TOP - 16.0], &above));
        }
        let y = self.up.at(limit);
        let drawn = line([LEFT, y], [RIGHT, y], SHORT).with("stroke-width", 2);
        // Its words stay above the figures of the axis.
        let told = y.min(BOTTOM - 14.0);
        group.all([
            drawn.with("stroke-dasharray", "8 4"),
            bold([RIGHT + 12.0, told - 4.0], "limit"),
            words([RIGHT + 12.0, told + 12.0], &shown),
        ])
    }

    /// A point of the curve with its figures.
    fn point(&self, point: (u64, i128)) -> Element {
        let (amount, charge) = point;
        let circle = circle(self.place(point), 3.5).with("fill", LONG);
        titled(circle, &format!("with {}: {}", whole(amount), mils(charge)))
    }

    /// The least amount, or the lowest charge where there is none, marked and told below.
    fn mark(&self) -> Element {
        let (amount, told) = self.answered.marked();
        let charge = self.answered.curve.charge(amount);
        let [x, y] = self.place((amount, charge));
        let down = line([x, y], [x, BOTTOM], FAINT).with("stroke-dasharray", "3 3");
        let ring = circle([x, y], 7.0).with("fill", "none");
        let ring = ring.with("stroke", INK).with("stroke-width", 2);
        let text = format!("{told} {}: charge {}", whole(amount), mils(charge));
        let half = 4.0 * text.len() as f64;
        let place = [x.clamp(half, WIDTH - half), BOTTOM + 40.0];
        let text = middle(place, &text).with("font-weight", "bold");
        element("g").class("mark").all([down, ring, text])
    }
}

/// The drawing of the charge against the amount.
pub fn curve(answered: &Answered) -> Drawing {
    let plot = Plot::new(answered);
    let asked = answered.asked;
    let places: Vec<Point> = plot.points.iter().map(|point| plot.place(*point)).collect();
    let points = plot.points.iter().map(|point| plot.point(*point));
    let (side, band, group) = (asked.side_word(), asked.band, asked.group);
    let below = format!("thousands added {side} in band {band}");
    let parts = vec![
        words([0.0, TOP - 16.0], "charge in currency units").with("fill", QUIET),
        plot.grid(),
        path(&places, LONG).class("curve"),
        plot.limit(),
        element("g").class("points").all(points),
        plot.mark(),
        middle([(LEFT + RIGHT) / 2.0, BOTTOM + 60.0], &below).with("fill", QUIET),
    ];
    Drawing {
        name: "curve".into(),
        title: format!("Currency {group}: the general charge as {side}s are added in band {band}"),
        words: answered.title(),
        height: HEIGHT,
        parts,
    }
}
