//! The zones below their bands, and what is matched between them, step by step: an arrow from the
//! zone that is long to the zone that is short, and below it what is left of both.

use super::super::shapes::{arrow, bold, clear, line, middle, rect, titled, words};
use super::super::sides::Bars;
use super::super::unit::Unit;
use super::super::{FAINT, LEFT, PAPER, QUIET, RIGHT};
use crate::ladder::bands::ZONES;
use crate::ladder::interest::Interest;
use crate::ladder::steps::Step;
use crate::markup::{element, Element};
use crate::text::{mils, weighted};

/// The height of a zone's box, of a match, and of the last box.
const BOX: f64 = 46.0;
const MATCH: f64 = 48.0;
const LAST: f64 = 32.0;

/// A weighted position where there is room for so many characters.
fn shown(value: i128) -> String {
    Unit::Weighted.fitted(value, 10)
}

/// A net with its side in a word.
fn sided(net: i128) -> String {
    match net {
        0 => "0.0".into(),
        _ => format!("{} {}", shown(net.abs()), side(net)),
    }
}

/// The side of a net that is not zero.
fn side(net: i128) -> &'static str {
    match net > 0 {
        true => "long",
        false => "short",
    }
}

/// The net of each zone before anything is matched between zones.
fn nets(ladder: &Interest) -> [i128; 3] {
    let net = |(long, short): &(i128, i128)| long - short;
    [0, 1, 2].map(|zone| ladder.bands[ZONES[zone].clone()].iter().map(net).sum())
}

/// The zones on the page: the ladder, its bars, and where things stand.
struct Zones<'a> {
    ladder: &'a Interest,
    bars: &'a Bars,
    top: f64,
}

impl Zones<'_> {
    /// The middle of a zone.
    fn middle(&self, zone: usize) -> f64 {
        let bands = &ZONES[zone];
        (self.bars.begin(bands.start) + self.bars.begin(bands.end)) / 2.0
    }

    /// A zone's box: its net, and what was matched within it.
    fn named(&self, zone: usize, net: i128) -> Element {
        let bands = &ZONES[zone];
        let begin = self.bars.begin(bands.start) + 2.0;
        let width = self.bars.begin(bands.end) - 2.0 - begin;
        let frame = rect([begin, self.top], [width, BOX]);
        let frame = frame.with("fill", PAPER).with("stroke", FAINT);
        let step = &self.ladder.steps[1 + zone];
        let x = self.middle(zone);
        let net_line = bold([x, self.top + 20.0], &format!("net {}", sided(net)));
        let within = format!("matched {} at {}%", shown(step.matched), step.per_cent);
        let within = middle([x, self.top + 37.0], &within);
        let exact = format!("zone {}: net {}", zone + 1, weighted(net));
        element("g").class("zone").all([
            titled(frame, &exact),
            net_line.with("text-anchor", "middle"),
            within,
        ])
    }

    /// What is left of a zone after a match, beside its line.
    fn left(&self, zone: usize, net: i128, y: f64) -> Element {
        let place = [self.middle(zone) + 7.0, y + 18.0];
        clear(words(place, &format!("left {}", sided(net)))).with("fill", QUIET)
    }

    /// A match between two zones.
    fn matched(&self, step: &Step, [long, short]: [usize; 2], y: f64) -> Element {
        let [from, to] = [long, short].map(|zone| self.middle(zone));
        let per_cent = step.per_cent;
        let exact = format!(
            "{}: {} matched at {per_cent}% cost {}; zone {} is long and zone {} short",
            step.name,
            weighted(step.matched),
            mils(step.matched * per_cent),
            long + 1,
            short + 1
        );
        let label = format!("{} matched at {per_cent}%", shown(step.matched));
        let label = clear(middle([(from + to) / 2.0, y - 7.0], &label));
        let left = step.zones.into_iter().flatten().map(|(zone, net)| {
            let left = net - step.matched * net.signum();
            self.left(zone, left, y)
        });
        titled(element("g").class("match"), &exact)
            .holding(words([0.0, y + 4.0], step.name).with("fill", QUIET))
            .all(arrow(from, to, y))
            .holding(label)
            .all(left)
    }

    /// The last box: what is left of all, and the charge.
    fn last(&self, y: f64) -> Element {
        let figures = &self.ladder.figures;
        let net: i128 = nets(self.ladder).iter().sum();
        let frame = rect([LEFT + 2.0, y], [RIGHT - LEFT - 4.0, LAST]);
        let frame = frame.with("fill", PAPER).with("stroke", FAINT);
        let residual = match net {
            0 => "residual 0.0".into(),
            _ => format!("residual {} at 100%", sided(net)),
        };
        let charge = Unit::Charge.fitted(figures.charge.into(), 24);
        let place = [(LEFT + RIGHT) / 2.0, y + 21.0];
        let text = bold(place, &format!("{residual}; the charge is {charge}"));
        let exact = format!(
            "residual {}, charge {}",
            weighted(figures.residual),
            mils(figures.charge)
        );
        element("g")
            .class("residual")
            .all([titled(frame, &exact), text.with("text-anchor", "middle")])
    }
}

/// The zones, the matches between them that are not of nothing, and the residual; and the height of
/// the drawing.
pub fn zones(ladder: &Interest, bars: &Bars, top: f64) -> (Vec<Element>, f64) {
    let zones = Zones { ladder, bars, top };
    let steps = ladder.steps.iter();
    let between = steps.filter_map(|step| Some((step, step.long_and_short()?)));
    let below = top + BOX;
    let matches: Vec<Element> = between
        .enumerate()
        .map(|(at, (step, sides))| zones.matched(step, sides, below + 28.0 + MATCH * at as f64))
        .collect();
    let end = below + 10.0 + MATCH * matches.len() as f64;
    let lines = (0..3).map(|zone| {
        let x = zones.middle(zone);
        line([x, below], [x, end], FAINT).with("stroke-dasharray", "2 3")
    });
    let front = words([0.0, top + 20.0], "zones").with("fill", QUIET);
    let mut parts = vec![front, element("g").all(lines)];
    parts.extend(
        nets(ladder)
            .into_iter()
            .enumerate()
            .map(|(zone, net)| zones.named(zone, net)),
    );
    parts.extend(matches);
    parts.push(zones.last(end));
    (parts, end + LAST + 8.0)
}
