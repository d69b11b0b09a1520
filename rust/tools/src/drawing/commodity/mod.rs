//! The ladder of a commodity: its bands, what is carried from band to band, and the three parts of
//! its charge.

mod charged;

use super::shapes::{arrow, clear, middle, rect, titled, words};
use super::sides::{Band, Bars, Side};
use super::unit::Unit;
use super::{Drawing, LONG, LONG_TINT, QUIET, SHADE, SHORT};
use crate::ladder::bands::{span, COMMODITY};
use crate::ladder::commodity::Commodity;
use crate::markup::{element, Element};
use crate::text::{mils, whole};

/// Where the bars begin, the names below them, what is carried, and the parts of the charge.
const TOP: f64 = 56.0;
const NAMES: [f64; 2] = [296.0, 314.0];
const CARRIED: f64 = 354.0;
const CHARGED: f64 = 380.0;

/// The bars of the amounts.
fn bars(ladder: &Commodity, name: &str) -> Bars {
    let side = |own: i128, carried: i128| Side {
        own,
        carried: carried.max(0),
    };
    let bands = ladder.bands.iter().enumerate();
    let bands = bands.map(|(number, band)| Band {
        name: format!("band {number}"),
        long: side(band.long, band.carried_in),
        short: side(band.short, -band.carried_in),
        matched: band.matched,
    });
    Bars {
        name: name.into(),
        unit: Unit::Amount,
        top: TOP,
        bands: bands.collect(),
    }
}

/// Every other band shaded, so that figures are found.
fn shades(bars: &Bars) -> Element {
    let shades = (0..bars.bands.len()).step_by(2).map(|band| {
        let (x, end) = (bars.begin(band), bars.begin(band + 1));
        let size = [end - x, bars.bottom() - TOP + 6.0];
        rect([x, TOP], size).with("fill", SHADE)
    });
    element("g").all(shades)
}

/// What the colours and the hatching mean.
fn legend(bars: &Bars) -> Element {
    let y = 39.0;
    let carried = rect([390.0, y - 11.0], [13.0, 13.0]).with("fill", LONG_TINT);
    let carried = carried.with("stroke", LONG).with("stroke-dasharray", "4 3");
    element("g").class("legend").all([
        bars.legend([0.0, y], Some(LONG), "long"),
        bars.legend([90.0, y], Some(SHORT), "short"),
        bars.legend([190.0, y], None, "matched in the band"),
        carried,
        words([409.0, y], "carried in from the band before"),
    ])
}

/// What goes from a band to the next.
fn carried(bars: &Bars, from: usize, amount: i128) -> Element {
    let side = if amount > 0 { "long" } else { "short" };
    let exact = format!(
        "from band {from} to band {}: {} {side} carried",
        from + 1,
        whole(amount.abs())
    );
    let [begin, end] = [bars.middle(from) + 4.0, bars.middle(from + 1) - 4.0];
    let label = format!("{} {side}", Unit::Amount.fitted(amount.abs(), 9));
    let label = clear(middle([(begin + end) / 2.0, CARRIED - 7.0], &label));
    titled(element("g").class("carry"), &exact)
        .all(arrow(begin, end, CARRIED))
        .holding(label)
}

/// All that is carried and is not nothing, with what it is in front.
fn all_carried(bars: &Bars, ladder: &Commodity) -> Element {
    let steps = ladder.bands.iter().enumerate().skip(1);
    let steps = steps.filter(|(_, band)| band.carried_in != 0);
    let front = words([0.0, CARRIED + 4.0], "carried").with("fill", QUIET);
    element("g")
        .holding(front)
        .all(steps.map(|(band, to)| carried(bars, band - 1, to.carried_in)))
}

/// The drawing of a commodity's ladder.
pub fn commodity(ladder: &Commodity) -> Drawing {
    let name = format!("commodity-{}", ladder.group);
    let bars = bars(ladder, &name);
    let mut parts = vec![shades(&bars)];
    parts.extend(bars.draw());
    parts.extend([
        legend(&bars),
        bars.names(NAMES[0], "band", |band| band.to_string()),
        bars.names(NAMES[1], "days", |band| span(&COMMODITY, band)),
        all_carried(&bars, ladder),
        charged::charged(ladder, CHARGED),
    ]);
    let figures = &ladder.figures;
    let words = format!(
        "Longs of bands 0 to 6 as bars up and shorts as bars down. Matches {}, carried {}, \
         residual {}, charge {}.",
        whole(figures.matches),
        whole(figures.carried),
        whole(figures.residual),
        mils(figures.charge)
    );
    Drawing {
        name,
        title: format!("Commodity {}: the ladder in thousands", ladder.group),
        words,
        height: CHARGED + charged::HEIGHT,
        parts,
    }
}
