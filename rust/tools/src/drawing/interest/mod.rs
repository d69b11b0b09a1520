//! The ladder of a currency: its bands in their zones, and below them the zones and what is matched
//! between these.

mod zones;

use super::shapes::{bold, rect};
use super::sides::{Band, Bars, Side};
use super::unit::Unit;
use super::{Drawing, LONG, QUIET, SHADE, SHORT};
use crate::ladder::bands::{LOW_COUPON, ORDINARY, ZONES};
use crate::ladder::interest::Interest;
use crate::markup::{element, Element};
use crate::text::{mils, weighted, whole};

/// Where the bars begin, the lines of names below them, and the zones.
const TOP: f64 = 76.0;
const NAMES: [f64; 3] = [316.0, 334.0, 352.0];
const ZONES_TOP: f64 = 368.0;

/// The bars of the weighted positions.
fn bars(ladder: &Interest, name: &str) -> Bars {
    let own = |own: i128| Side { own, carried: 0 };
    let band = |(number, (long, short)): (usize, &(i128, i128))| Band {
        name: format!("band {number}"),
        long: own(*long),
        short: own(*short),
        matched: *long.min(short),
    };
    Bars {
        name: name.into(),
        unit: Unit::Weighted,
        top: TOP,
        bands: ladder.bands.iter().enumerate().map(band).collect(),
    }
}

/// The last days of a band, short enough to stand below it.
fn days(last_days: &[u16], band: usize) -> String {
    match last_days.get(band) {
        Some(last) => format!("≤ {}", whole(*last)),
        None if band == last_days.len() => format!("> {}", whole(last_days[band - 1])),
        None => "–".into(),
    }
}

/// The zones behind the bars, with their names.
fn shades(bars: &Bars) -> Element {
    let zones = ZONES.iter().enumerate().flat_map(|(zone, bands)| {
        let (x, end) = (bars.begin(bands.start) + 2.0, bars.begin(bands.end) - 2.0);
        let shade = rect([x, TOP - 24.0], [end - x, bars.bottom() - TOP + 28.0]);
        let name = format!("zone {}", zone + 1);
        [
            shade.with("fill", SHADE),
            bold([x + 8.0, TOP - 8.0], &name).with("fill", QUIET),
        ]
    });
    element("g").class("zones").all(zones)
}

/// What the colours and the hatching mean, with the sums of each.
fn legend(bars: &Bars, ladder: &Interest) -> Element {
    let sum = |side: fn(&(i128, i128)) -> i128| ladder.bands.iter().map(side).sum::<i128>();
    let shown = |value: i128| Unit::Weighted.fitted(value, 12);
    let (long, short) = (shown(sum(|band| band.0)), shown(sum(|band| band.1)));
    let vertical = &ladder.steps[0];
    let (matched, per_cent) = (shown(vertical.matched), vertical.per_cent);
    let matched = format!("matched within bands {matched} at {per_cent}%");
    let y = 39.0;
    element("g").class("legend").all([
        bars.legend([0.0, y], Some(LONG), &format!("weighted long {long}")),
        bars.legend([250.0, y], Some(SHORT), &format!("weighted short {short}")),
        bars.legend([510.0, y], None, &matched),
    ])
}

/// The drawing in words.
fn words(ladder: &Interest) -> String {
    let said = ladder.steps.iter().filter(|step| step.matched > 0);
    let matches = said.map(|step| {
        let matched = weighted(step.matched);
        format!("{} {matched} at {}%", step.name, step.per_cent)
    });
    let matches: Vec<String> = matches.collect();
    let matches = match &matches[..] {
        [] => "nothing".into(),
        matches => matches.join(", "),
    };
    format!(
        "Weighted longs of bands 0 to 14 as bars up and weighted shorts as bars down, in three zones. \
         Matched: {matches}. Residual {}, charge {}.",
        weighted(ladder.figures.residual),
        mils(ladder.figures.charge)
    )
}

/// The drawing of a currency's ladder.
pub fn interest(ladder: &Interest) -> Drawing {
    let name = format!("currency-{}", ladder.group);
    let bars = bars(ladder, &name);
    let (zones, height) = zones::zones(ladder, &bars, ZONES_TOP);
    let below = [
        bars.names(NAMES[0], "band", |band| band.to_string()),
        bars.names(NAMES[1], "coupon ≥ 3%", |band| days(&ORDINARY, band)),
        bars.names(NAMES[2], "below 3%", |band| days(&LOW_COUPON, band)),
    ];
    let mut parts = vec![shades(&bars)];
    parts.extend(bars.draw());
    parts.push(legend(&bars, ladder));
    parts.extend(below);
    parts.extend(zones);
    Drawing {
        name,
        title: format!("Currency {}: the ladder in currency units", ladder.group),
        words: words(ladder),
        height,
        parts,
    }
}
