//! The ladder of one currency as text, in at most 100 columns whatever its amounts.

use super::Interest;
use crate::ladder::adding_up;
use crate::ladder::bands::{span, zone, LOW_COUPON, ORDINARY};
use crate::ladder::steps::Step;
use crate::text::{mils, places, titled, weighted, whole};

/// Bands with their days, weights and amounts.
fn amount_table(ladder: &Interest, bands: &[usize]) -> String {
    let weights = ladder.table.weights();
    let line = |band: &usize| {
        let (long, short) = ladder.amounts[*band];
        vec![
            zone(*band).to_string(),
            band.to_string(),
            span(&ORDINARY, *band),
            span(&LOW_COUPON, *band),
            places(weights[*band], 2) + "%",
            whole(long),
            whole(short),
        ]
    };
    let days = ["coupon 3% or more", "below 3%"];
    let titles = ["zone", "band", days[0], days[1], "weight", "long", "short"];
    titled(&titles, bands.iter().map(line))
}

/// Bands with their weighted positions, what matches in each, and its net.
fn weighted_table(ladder: &Interest, bands: &[usize]) -> String {
    let line = |band: &usize| {
        let (long, short) = ladder.bands[*band];
        let figures = [long, short, long.min(short), long - short].map(weighted);
        [&[band.to_string()], &figures[..]].concat()
    };
    let titles = ["band", "weighted long", "weighted short", "matched", "net"];
    titled(&titles, bands.iter().map(line))
}

/// Zones with the longs and the shorts among the nets of their bands, and their own net.
fn zone_table(steps: &[Step]) -> String {
    let line = |step: &Step| {
        let (long, short) = step.sides.filter(|_| step.zones.is_none())?;
        let figures = [long, short, long - short].map(weighted);
        Some([&[step.name.to_string()], &figures[..]].concat())
    };
    let titles = ["step", "long", "short", "net"];
    titled(&titles, steps.iter().filter_map(line))
}

/// Whether a net is long or short, in a word.
fn side(net: i128) -> &'static str {
    match net.signum() {
        1 => "long",
        -1 => "short",
        _ => "zero",
    }
}

/// Matches between zones: each zone with its side and its net before, and what is matched.
fn match_table(steps: &[Step]) -> String {
    let line = |step: &Step| {
        let before = step.zones?;
        let zone = |(zone, net): (usize, i128)| {
            [format!("{} {}", zone + 1, side(net)), weighted(net.abs())]
        };
        let matched = match step.matched {
            0 => "nothing".into(),
            matched => weighted(matched),
        };
        let [one, other] = before.map(zone);
        Some([&[step.name.to_string()], &one[..], &other, &[matched]].concat())
    };
    let titles = [
        "step",
        "zone",
        "net before",
        "zone",
        "net before",
        "matched",
    ];
    titled(&titles, steps.iter().filter_map(line))
}

/// One line of what is charged: a position at so many per cent.
fn charged(name: &str, position: i128, per_cent: i128) -> Vec<String> {
    let charge = mils(position * per_cent);
    vec![
        name.into(),
        weighted(position),
        format!("{per_cent}%"),
        charge,
    ]
}

/// What every step, the residual and so the ladder are charged.
fn charge_table(ladder: &Interest) -> String {
    let steps = ladder.steps.iter();
    let steps = steps.map(|step| charged(step.name, step.matched, step.per_cent));
    let residual = charged("residual", ladder.figures.residual.into(), 100);
    let blank = String::new;
    let charge = mils(ladder.figures.charge);
    let charge = vec!["charge".into(), blank(), blank(), charge];
    let titles = ["step", "matched", "per cent", "disallowance"];
    titled(&titles, steps.chain([residual, charge]))
}

/// The ladder: its bands, its zones, the matches between these, what is charged, and the lines by
/// which it adds up. Bands without positions may be hidden.
pub fn text(ladder: &Interest, hide_empty: bool) -> String {
    let bands = ladder.shown(hide_empty);
    let units = "amounts in thousands, weighted positions and charges in currency units";
    let title = format!("currency {}: {units}\n", ladder.group);
    let parts = match bands[..] {
        [] => vec![title, "no band has positions\n".into()],
        _ => {
            let amounts = amount_table(ladder, &bands);
            vec![title, amounts, weighted_table(ladder, &bands)]
        }
    };
    let below = [
        zone_table(&ladder.steps),
        match_table(&ladder.steps),
        charge_table(ladder),
        adding_up::show(&ladder.lines),
    ];
    [parts, below.to_vec()].concat().join("\n")
}
