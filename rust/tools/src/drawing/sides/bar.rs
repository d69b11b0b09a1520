//! The bars of one band, with their figures.

use super::{Bars, Side};
use crate::drawing::axis::Scale;
use crate::drawing::shapes::{middle, rect, titled, Point};
use crate::drawing::{LONG, LONG_TINT, SHORT, SHORT_TINT};
use crate::markup::Element;

impl Bars {
    /// A bar between two figures, which may be of nothing.
    fn bar(&self, band: usize, scale: &Scale, from: i128, to: i128) -> Element {
        let width = (self.step() * 0.66).min(60.0);
        let [top, bottom] = [scale.at(from.max(to)), scale.at(from.min(to))];
        let corner: Point = [self.middle(band) - width / 2.0, top];
        rect(corner, [width, bottom - top])
    }

    /// The bars of one side of a band, longs with sign 1 and shorts with -1, and the figure at its end.
    pub(super) fn side(&self, at: usize, scale: &Scale, side: Side, sign: i128) -> Vec<Element> {
        let band = &self.bands[at];
        let (word, colour, tint) = match sign {
            1 => ("long", LONG, LONG_TINT),
            _ => ("short", SHORT, SHORT_TINT),
        };
        let told = |what: &str, figure: i128| {
            let exact = self.unit.exact(figure);
            format!("{}: {exact} {what}", band.name)
        };
        let mut drawn = Vec::new();
        if side.own > 0 {
            let bar = self.bar(at, scale, 0, sign * side.own);
            let bar = bar.class(word).with("fill", colour);
            drawn.push(titled(bar, &told(word, side.own)));
        }
        if side.carried > 0 {
            let bar = self.bar(at, scale, sign * side.own, sign * side.together());
            let bar = bar.class("carried").with("fill", tint);
            let bar = bar.with("stroke", colour).with("stroke-dasharray", "4 3");
            let bar = bar.with("stroke-width", 2);
            let what = format!("{word} carried in");
            drawn.push(titled(bar, &told(&what, side.carried)));
        }
        if side.together() > 0 && band.matched > 0 {
            let bar = self.bar(at, scale, 0, sign * band.matched);
            let bar = bar.class("matched").with("fill", self.hatching());
            let what = format!("matched of the {word}");
            drawn.push(titled(bar, &told(&what, band.matched)));
        }
        drawn.extend(self.figure(at, scale, side, sign));
        drawn
    }

    /// What a side of a band has of its own, past the end of its bar.
    fn figure(&self, at: usize, scale: &Scale, side: Side, sign: i128) -> Option<Element> {
        let past = if sign > 0 { -6.0 } else { 15.0 };
        let y = scale.at(sign * side.together()) + past;
        let shown = self.unit.fitted(side.own, self.room());
        (side.own > 0).then(|| middle([self.middle(at), y], &shown))
    }

    /// How many characters go between the middles of two bands.
    fn room(&self) -> usize {
        (self.step() / 7.4) as usize
    }
}
