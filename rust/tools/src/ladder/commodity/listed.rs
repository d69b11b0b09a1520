//! The figures of one commodity's ladder, by name.

use super::{Charged, Commodity};
use crate::ladder::listed::{Figure, Listed};

/// What is charged, with its rate.
fn step(charged: Charged) -> (&'static str, Vec<Figure>) {
    let figures = vec![
        (charged.name, charged.sum.into()),
        ("basis_points", charged.basis_points.into()),
        ("mils", charged.mils()),
    ];
    (charged.step, figures)
}

impl Commodity {
    fn band(&self, number: usize) -> Vec<Figure> {
        let band = &self.bands[number];
        vec![
            ("band", number as i128),
            ("long_thousands", band.long),
            ("short_thousands", band.short),
            ("carried_thousands", band.carried_in),
            ("matched_thousands", band.matched),
            ("net_thousands", band.net),
        ]
    }

    /// The figures of the ladder; bands without positions, into which nothing is carried, may be left
    /// out.
    pub fn listed(&self, hide_empty: bool) -> Listed {
        let bands = self.shown(hide_empty).into_iter();
        let charged = self.charged();
        Listed {
            class: "commodity",
            of: "commodity",
            group: self.group,
            bands: bands.map(|band| self.band(band)).collect(),
            sums: charged
                .iter()
                .map(|sum| (sum.name, sum.sum.into()))
                .collect(),
            steps: charged.map(step).to_vec(),
            charge: self.figures.charge,
        }
    }
}
