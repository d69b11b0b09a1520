//! The ladder of one commodity as text, in at most 100 columns whatever its amounts.

use super::{Charged, Commodity};
use crate::ladder::adding_up;
use crate::ladder::bands::{span, COMMODITY};
use crate::text::{mils, titled, whole};

/// Bands with their days and amounts.
fn amount_table(ladder: &Commodity, bands: &[usize]) -> String {
    let line = |number: &usize| {
        let band = &ladder.bands[*number];
        let days = span(&COMMODITY, *number);
        vec![
            number.to_string(),
            days,
            whole(band.long),
            whole(band.short),
        ]
    };
    titled(&["band", "days", "long", "short"], bands.iter().map(line))
}

/// Bands with what is carried in, what matches, and the net that goes on.
fn carried_table(ladder: &Commodity, bands: &[usize]) -> String {
    let line = |number: &usize| {
        let band = &ladder.bands[*number];
        let figures = [band.carried_in, band.matched, band.net].map(whole);
        [&[number.to_string()], &figures[..]].concat()
    };
    let titles = ["band", "carried in", "matched", "net"];
    titled(&titles, bands.iter().map(line))
}

/// The table of what is charged: matches, amounts carried, the residual.
fn charge_table(ladder: &Commodity) -> String {
    let line = |charged: &Charged| {
        let (sum, charge) = (whole(charged.sum), mils(charged.mils()));
        vec![charged.words.into(), sum, charged.rate.into(), charge]
    };
    let blank = String::new;
    let charge = mils(ladder.figures.charge);
    let charge = vec!["charge".into(), blank(), blank(), charge];
    let charged = ladder.charged();
    let lines = charged.iter().map(line).chain([charge]);
    titled(&["", "sum", "rate", "charge"], lines)
}

/// The ladder: its bands, what is charged, and the lines by which it adds up. Bands without
/// positions, into which nothing is carried, may be hidden.
pub fn text(ladder: &Commodity, hide_empty: bool) -> String {
    let bands = ladder.shown(hide_empty);
    let units = "amounts in thousands, charges in currency units";
    let title = format!("commodity {}: {units}\n", ladder.group);
    let parts = match bands[..] {
        [] => vec![title, "no band has positions\n".into()],
        _ => {
            let amounts = amount_table(ladder, &bands);
            vec![title, amounts, carried_table(ladder, &bands)]
        }
    };
    let below = [charge_table(ladder), adding_up::show(&ladder.lines)];
    [parts, below.to_vec()].concat().join("\n")
}
