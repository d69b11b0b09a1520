//! What belongs to bars: their hatching, the names below them and the legend.

use super::Bars;
use crate::drawing::shapes::{line, middle, rect, words, Point};
use crate::drawing::{FAINT, PAPER, QUIET};
use crate::markup::{element, Element};

impl Bars {
    /// The hatching, as a fill.
    pub(super) fn hatching(&self) -> String {
        format!("url(#{}-hatch)", self.name)
    }

    /// What the hatching looks like: white stripes, through which the colour of a bar is seen.
    pub(super) fn pattern(&self) -> Element {
        let stripe = line([0.0, 0.0], [0.0, 7.0], PAPER).with("stroke-width", 5);
        let pattern = element("pattern")
            .with("id", format!("{}-hatch", self.name))
            .with("width", 7)
            .with("height", 7)
            .with("patternUnits", "userSpaceOnUse")
            .with("patternTransform", "rotate(45)");
        element("defs").holding(pattern.holding(stripe))
    }

    /// A line of names below the bars, one for each band, with what they are in front.
    pub fn names(&self, y: f64, title: &str, name: impl Fn(usize) -> String) -> Element {
        let front = words([0.0, y], title).with("fill", QUIET);
        let names = (0..self.bands.len()).map(|band| middle([self.middle(band), y], &name(band)));
        element("g").holding(front).all(names)
    }

    /// A word of the legend, after a square that looks as its bars do.
    pub fn legend(&self, place: Point, fill: Option<&str>, text: &str) -> Element {
        let [x, y] = place;
        let square = || rect([x, y - 11.0], [13.0, 13.0]);
        let squares = match fill {
            Some(colour) => vec![square().with("fill", colour)],
            None => vec![
                square().with("fill", FAINT),
                square().with("fill", self.hatching()),
            ],
        };
        element("g")
            .all(squares)
            .holding(words([x + 19.0, y], text))
    }
}
