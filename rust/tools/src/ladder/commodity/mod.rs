//! The ladder of one commodity: its figures are the library's, and its rows lead to them.

mod charged;
mod listed;
mod text;

use super::bands::{band, COMMODITY};
use super::{adding_up, same};
use crate::lines::{hold, Line};
use books::Row;
use market_risk::CommodityLadder;

pub use charged::Charged;
pub use text::text;

/// One band: its own longs and shorts, what came in, the match, what goes on.
#[derive(Clone, Copy, Default)]
pub struct Band {
    pub long: i128,
    pub short: i128,
    pub carried_in: i128,
    pub matched: i128,
    pub net: i128,
}

/// A ladder whose figures agree with its bands.
pub struct Commodity {
    pub group: u64,
    pub bands: [Band; 7],
    pub figures: CommodityLadder,
    /// The lines by which it adds up.
    pub lines: Vec<Line>,
}

/// The bands of one commodity, nearest first.
fn bands(rows: &[Row], group: u64) -> [Band; 7] {
    let mut bands = [Band::default(); 7];
    for row in rows.iter().filter(|row| u64::from(row.group) == group) {
        let at = band(&COMMODITY, row.days);
        bands[at].long += i128::from(row.long);
        bands[at].short += i128::from(row.short);
    }
    let mut carried = 0i128;
    for band in &mut bands {
        let long = band.long + carried.max(0);
        let short = band.short + (-carried).max(0);
        band.carried_in = carried;
        band.matched = long.min(short);
        band.net = long - short;
        carried = band.net;
    }
    bands
}

/// Fails where the bands do not lead to the library's figures.
fn cross_check(bands: &[Band; 7], ladder: &CommodityLadder) -> Result<(), String> {
    let matches: i128 = bands.iter().map(|band| band.matched).sum();
    let carried: i128 = bands.iter().map(|band| band.carried_in.abs()).sum();
    let residual = bands[6].net.abs();
    same("matches", matches, ladder.matches)?;
    same("carried", carried, ladder.carried)?;
    same("residual", residual, ladder.residual)?;
    let charge = 30_000 * matches + 6_000 * carried + 150_000 * residual;
    same("charge", charge, ladder.charge)?;
    let gross: i128 = bands.iter().map(|band| band.long + band.short).sum();
    let net: i128 = bands.iter().map(|band| band.long - band.short).sum();
    same(
        "gross less twice the matches",
        gross - 2 * matches,
        ladder.residual,
    )?;
    same("the net of all bands", net.abs(), ladder.residual)
}

impl Commodity {
    /// The ladder of a commodity by its rows and the library's figures, or where they disagree.
    pub fn new(rows: &[Row], group: u64, figures: &CommodityLadder) -> Result<Commodity, String> {
        let bands = bands(rows, group);
        let lines = adding_up::commodity(rows, group, figures);
        hold(cross_check(&bands, figures).err(), &lines)?;
        Ok(Commodity {
            group,
            bands,
            figures: *figures,
            lines,
        })
    }

    /// The bands that are shown: all, or those that have positions or take in what is carried.
    pub fn shown(&self, hide_empty: bool) -> Vec<usize> {
        let empty = |number: &usize| {
            let band = &self.bands[*number];
            (band.long, band.short, band.carried_in) == (0, 0, 0)
        };
        (0..7).filter(|band| !(hide_empty && empty(band))).collect()
    }
}

#[cfg(test)]
mod tests {
    use super::*;
    use books::Book;

    /// The ladder as text.
    fn show(rows: &[Row], group: u64, figures: &CommodityLadder) -> Result<String, String> {
        Commodity::new(rows, group, figures).map(|ladder| text(&ladder, false))
    }

    /// E5, in commodity 5.
    fn rows() -> Vec<Row> {
        let row = |days, long, short| {
            let row = Row::default().with_group(5);
            row.with_days(days).with_sides(long, short)
        };
        vec![
            row(150, 800, 0),
            row(150, 0, 1000),
            row(600, 600, 0),
            row(1100, 0, 600),
        ]
    }

    /// The library's figures of commodity 5.
    fn library(rows: &[Row]) -> CommodityLadder {
        let mut book = Book::default();
        book.classes[3] = rows.to_vec();
        market_risk::commodity_ladder(&book.encode().unwrap(), 5).unwrap()
    }

    /// One figure of a ladder.
    type Figure = fn(&mut CommodityLadder) -> &mut u64;

    /// Each figure of a ladder, by the name that its check has.
    const FIGURES: [(&str, Figure); 4] = [
        ("matches", |ladder| &mut ladder.matches),
        ("carried", |ladder| &mut ladder.carried),
        ("residual", |ladder| &mut ladder.residual),
        ("charge", |ladder| &mut ladder.charge),
    ];

    /// Catches a cross-check that is always true, is not made, or leaves a figure out.
    #[test]
    fn a_wrong_figure_of_the_library_is_named() {
        let right = library(&rows());
        assert!(show(&rows(), 5, &right).is_ok());
        for (name, figure) in FIGURES {
            for by in [1, 1 << 40] {
                let mut wrong = right;
                *figure(&mut wrong) += by;
                let told = show(&rows(), 5, &wrong).unwrap_err();
                assert!(told.starts_with(&format!("{name}: ")), "{name}: {told}");
                assert!(told.contains("\ndoes not add up: "), "{name}: {told}");
            }
        }
        assert!(show(&rows(), 5, &CommodityLadder::default()).is_err());
    }

    /// Catches a cross-check that does not look at a figure of the drawn bands.
    #[test]
    fn a_wrong_figure_of_a_band_is_told() {
        let right = library(&rows());
        let bands = bands(&rows(), 5);
        assert!(cross_check(&bands, &right).is_ok());
        let figures: [fn(&mut Band) -> &mut i128; 4] = [
            |band| &mut band.long,
            |band| &mut band.short,
            |band| &mut band.carried_in,
            |band| &mut band.matched,
        ];
        for at in 0..bands.len() {
            for (number, figure) in figures.iter().enumerate() {
                let mut wrong = bands;
                *figure(&mut wrong[at]) += 1;
                assert!(cross_check(&wrong, &right).is_err(), "{at}: {number}");
            }
        }
        let mut wrong = bands;
        wrong[6].net -= 1;
        assert!(cross_check(&wrong, &right).is_err());
    }
}
