//! The shapes of which drawings are made.

use super::{INK, PAPER};
use crate::markup::{element, Element};

/// A point: to the right, and down.
pub type Point = [f64; 2];

/// A length in a drawing, to a thousandth.
fn at(length: f64) -> f64 {
    let rounded = (length * 1_000.0).round() / 1_000.0;
    rounded + 0.0 // no -0
}

/// A shape with its numbers.
fn shape<const N: usize>(name: &'static str, numbers: [(&str, f64); N]) -> Element {
    let with = |shape: Element, (name, number)| shape.with(name, at(number));
    numbers.into_iter().fold(element(name), with)
}

/// A rectangle, by its corner at the top left and its size.
pub fn rect([x, y]: Point, [width, height]: Point) -> Element {
    let numbers = [("x", x), ("y", y), ("width", width), ("height", height)];
    shape("rect", numbers)
}

/// A straight line.
pub fn line([x1, y1]: Point, [x2, y2]: Point, colour: &str) -> Element {
    let numbers = [("x1", x1), ("y1", y1), ("x2", x2), ("y2", y2)];
    shape("line", numbers).with("stroke", colour)
}

/// A circle by its middle.
pub fn circle([cx, cy]: Point, radius: f64) -> Element {
    shape("circle", [("cx", cx), ("cy", cy), ("r", radius)])
}

/// Lines from point to point.
pub fn path(points: &[Point], colour: &str) -> Element {
    let shown = points.iter().map(|[x, y]| format!("{},{}", at(*x), at(*y)));
    element("polyline")
        .with("points", shown.collect::<Vec<_>>().join(" "))
        .with("fill", "none")
        .with("stroke", colour)
        .with("stroke-width", 2)
}

/// The head of an arrow at its tip, which points to the right or to the left.
fn head([x, y]: Point, right: bool) -> Element {
    let back = if right { x - 10.0 } else { x + 10.0 };
    let points = [[x, y], [back, y - 5.0], [back, y + 5.0]];
    let shown = points.map(|[x, y]| format!("{},{}", at(x), at(y)));
    element("polygon")
        .with("points", shown.join(" "))
        .with("fill", INK)
}

/// A level arrow between two places.
pub fn arrow(from: f64, to: f64, y: f64) -> [Element; 2] {
    let shaft = line([from, y], [to, y], INK).with("stroke-width", 2);
    [shaft, head([to, y], to > from)]
}

/// Text that begins at a point.
pub fn words(place: Point, text: &str) -> Element {
    let [x, y] = place;
    shape("text", [("x", x), ("y", y)]).text(text)
}

/// Text in heavy letters.
pub fn bold(place: Point, text: &str) -> Element {
    words(place, text).with("font-weight", "bold")
}

/// Text about a point.
pub fn middle(place: Point, text: &str) -> Element {
    words(place, text).with("text-anchor", "middle")
}

/// Text that ends at a point.
pub fn end(place: Point, text: &str) -> Element {
    words(place, text).with("text-anchor", "end")
}

/// Text that can be read over lines: white about its letters.
pub fn clear(text: Element) -> Element {
    text.with("stroke", PAPER)
        .with("stroke-width", 4)
        .with("paint-order", "stroke")
}

/// A shape with what it stands for, shown where a pointer rests on it.
pub fn titled(shape: Element, title: &str) -> Element {
    shape.holding(element("title").text(title))
}

/// A bar of a part of a whole, as long as its share of 100; none where the whole is nothing.
pub fn share(part: u64, whole: u64) -> Element {
    let share = 100.0 * part as f64 / whole.max(1) as f64;
    let bar = rect([0.0, 0.0], [share, 10.0]).with("fill", super::LONG);
    element("svg")
        .class("share")
        .with("viewBox", "0 0 100 10")
        .with("preserveAspectRatio", "none")
        .with("aria-hidden", "true")
        .holding(bar)
}
