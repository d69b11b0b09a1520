//! The bars of bands: longs up from the line of zero, shorts down, on one scale; what is matched
//! within a band is hatched on both sides.

mod around;
mod bar;

use super::axis::{ticks, Scale};
use super::shapes::{end, line};
use super::unit::Unit;
use super::{GRID, INK, LEFT, RIGHT};
use crate::markup::{element, Element};

/// The height of the bars, without the figures above and below them.
const HEIGHT: f64 = 180.0;

/// The room of those figures, above and below.
const ROOM: f64 = 20.0;

/// One side of a band: its own positions, and what comes in from the band before.
#[derive(Clone, Copy, Default)]
pub struct Side {
    pub own: i128,
    pub carried: i128,
}

impl Side {
    fn together(&self) -> i128 {
        self.own + self.carried
    }
}

/// A band: what it is called in words, both sides, and what is matched of each.
pub struct Band {
    pub name: String,
    pub long: Side,
    pub short: Side,
    pub matched: i128,
}

/// The bars of all bands, from the top down.
pub struct Bars {
    /// The name of the drawing, by which its hatching is found.
    pub name: String,
    pub unit: Unit,
    pub top: f64,
    pub bands: Vec<Band>,
}

impl Bars {
    /// How far it is from band to band.
    fn step(&self) -> f64 {
        (RIGHT - LEFT) / self.bands.len() as f64
    }

    /// Where a band begins.
    pub fn begin(&self, band: usize) -> f64 {
        LEFT + self.step() * band as f64
    }

    /// The middle of a band.
    pub fn middle(&self, band: usize) -> f64 {
        self.begin(band) + self.step() / 2.0
    }

    /// Below the bars and their figures.
    pub fn bottom(&self) -> f64 {
        self.top + HEIGHT + 2.0 * ROOM
    }

    /// The longest bar of each side.
    fn most(&self) -> [i128; 2] {
        let most = |side: fn(&Band) -> Side| {
            let together = self.bands.iter().map(|band| side(band).together());
            together.max().unwrap_or(0)
        };
        [most(|band| band.long), most(|band| band.short)]
    }

    /// The scale on which the longest bars of both sides take the whole height.
    fn scale(&self) -> Scale {
        let [up, down] = self.most();
        let end = self.top + ROOM;
        let both = (up + down).max(1) as f64;
        let zero = end + HEIGHT * up as f64 / both;
        match up {
            0 => Scale::new(zero, zero - HEIGHT, down),
            _ => Scale::new(zero, end, up),
        }
    }

    /// The lines behind the bars, with their figures.
    fn grid(&self, scale: &Scale) -> Element {
        let [up, down] = self.most();
        let lines = ticks(-down, up, 5).into_iter().flat_map(|figure| {
            let y = scale.at(figure);
            let colour = if figure == 0 { INK } else { GRID };
            let shown = self.unit.tick(figure.abs());
            [
                line([LEFT, y], [RIGHT, y], colour),
                end([LEFT - 8.0, y + 4.0], &shown),
            ]
        });
        element("g").class("grid").all(lines)
    }

    /// The bars with all that belongs to them.
    pub fn draw(&self) -> Vec<Element> {
        let scale = self.scale();
        let bands = self.bands.iter().enumerate();
        let bars = bands.flat_map(|(at, band)| {
            let long = self.side(at, &scale, band.long, 1);
            let short = self.side(at, &scale, band.short, -1);
            long.into_iter().chain(short)
        });
        let bars = element("g").class("bars").all(bars);
        vec![self.pattern(), self.grid(&scale), bars]
    }
}
