//! The figures of one currency's ladder, by name.

use super::Interest;
use crate::ladder::bands::zone;
use crate::ladder::listed::{Figure, Listed};
use crate::ladder::steps::Step;

/// The names of the nets of zones 1, 2 and 3.
const ZONE_NETS: [&str; 3] = [
    "zone_1_net_weighted",
    "zone_2_net_weighted",
    "zone_3_net_weighted",
];

/// A position at so many per cent: a weighted position is 100 mils.
fn charged(name: &'static str, position: i128, per_cent: i128) -> [Figure; 3] {
    let mils = position * per_cent;
    [(name, position), ("per_cent", per_cent), ("mils", mils)]
}

/// A step: what stood against what, the zones before the match, and what it costs.
fn step(step: &Step) -> (&'static str, Vec<Figure>) {
    let sides = step.sides.into_iter();
    let sides =
        sides.flat_map(|(long, short)| [("long_weighted", long), ("short_weighted", short)]);
    let zones = step.zones.into_iter().flatten();
    let zones = zones.map(|(zone, net)| (ZONE_NETS[zone], net));
    let charged = charged("matched_weighted", step.matched, step.per_cent);
    (step.name, sides.chain(zones).chain(charged).collect())
}

impl Interest {
    fn band(&self, band: usize) -> Vec<Figure> {
        let (amounts, (long, short)) = (self.amounts[band], self.bands[band]);
        vec![
            ("band", band as i128),
            ("zone", zone(band) as i128),
            ("weight_basis_points", self.table.weights()[band].into()),
            ("long_thousands", amounts.0),
            ("short_thousands", amounts.1),
            ("long_weighted", long),
            ("short_weighted", short),
            ("matched_weighted", long.min(short)),
            ("net_weighted", long - short),
        ]
    }

    /// The figures of the ladder; bands without positions may be left out.
    pub fn listed(&self, hide_empty: bool) -> Listed {
        let bands = self.shown(hide_empty).into_iter();
        let [gross, residual] = [self.figures.gross, self.figures.residual].map(i128::from);
        let last = charged("residual_weighted", residual, 100);
        let steps = self.steps.iter().map(step);
        Listed {
            class: "interest",
            of: "currency",
            group: self.group,
            bands: bands.map(|band| self.band(band)).collect(),
            steps: steps.chain([("residual", last.to_vec())]).collect(),
            sums: vec![("gross_weighted", gross), ("residual_weighted", residual)],
            charge: self.figures.charge,
        }
    }
}
