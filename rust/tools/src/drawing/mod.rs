//! Drawings of ladders and curves as SVG. Colours are told apart in grey too: longs are dark,
//! shorts light, and what is matched is hatched. Every figure stands exactly in a `<title>`.

mod axis;
mod commodity;
mod curve;
mod interest;
mod shapes;
mod sides;
mod unit;

use crate::markup::{element, Element};

pub use commodity::commodity;
pub use curve::curve;
pub use interest::interest;
pub use shapes::share;

/// The width of every drawing, in its own units: at this many pixels its letters are 13 high.
const WIDTH: f64 = 900.0;

/// Where bands, zones and curves begin and end; before them stand the names of the lines.
const LEFT: f64 = 96.0;
const RIGHT: f64 = 890.0;

/// Longs, shorts, the same carried in, all other lines, and what stands behind them.
const LONG: &str = "#1b4f8a";
const SHORT: &str = "#e8982f";
const LONG_TINT: &str = "#c3d4e8";
const SHORT_TINT: &str = "#f9e0bf";
const INK: &str = "#222222";
const FAINT: &str = "#8a8a8a";
const SHADE: &str = "#eef1f4";

/// The ground, words that stand back, and the lines behind bars and curves.
const PAPER: &str = "#ffffff";
const QUIET: &str = "#555555";
const GRID: &str = "#d4d8dc";

/// A drawing: what it is called, what it shows in words, and its parts from the top down.
pub struct Drawing {
    name: String,
    title: String,
    words: String,
    height: f64,
    parts: Vec<Element>,
}

/// The white about a drawing that is a file of its own.
const MARGIN: f64 = 14.0;

impl Drawing {
    /// The drawing in a page, whose namespace and ground are the page's.
    pub fn element(self) -> Element {
        let frame = [0.0, 0.0, WIDTH, self.height];
        self.within(element("svg").class("drawing"), frame, None)
    }

    /// The drawing as a file of its own, on white, with a note at the end of its words.
    pub fn file(mut self, note: &str) -> String {
        self.words = format!("{} {note}", self.words).trim_end().into();
        let [width, height] = [WIDTH, self.height].map(|side| side + 2.0 * MARGIN);
        let svg = element("svg")
            .with("xmlns", "http://www.w3.org/2000/svg")
            .with("width", width)
            .with("height", height);
        let ground = shapes::rect([-MARGIN, -MARGIN], [width, height]);
        let ground = ground.with("fill", PAPER);
        let frame = [-MARGIN, -MARGIN, width, height];
        let drawn = self.within(svg, frame, Some(ground));
        format!("<?xml version=\"1.0\" encoding=\"UTF-8\"?>\n{drawn}")
    }

    /// The parts in their element, on their ground, with what a reader who does not see them is told.
    fn within(self, svg: Element, frame: [f64; 4], ground: Option<Element>) -> Element {
        let [title, words] = ["title", "desc"].map(|part| format!("{}-{part}", self.name));
        svg.with("viewBox", frame.map(|side| side.to_string()).join(" "))
            .with("role", "img")
            .with("aria-labelledby", format!("{title} {words}"))
            .with("font-family", "sans-serif")
            .with("font-size", 13)
            .with("fill", INK)
            .holding(element("title").with("id", title).text(&self.title))
            .holding(element("desc").with("id", words).text(&self.words))
            .all(ground)
            .holding(shapes::bold([0.0, 17.0], &self.title).with("font-size", 15))
            .all(self.parts)
    }
}
