//! What a commodity's ladder is charged for.

use super::Commodity;

/// A sum in thousands that bears a rate.
pub struct Charged {
    pub step: &'static str,
    /// The step as a reader is told of it.
    pub words: &'static str,
    /// The name of the sum, with its unit.
    pub name: &'static str,
    pub sum: u64,
    pub basis_points: u16,
    /// The rate as a reader is told of it.
    pub rate: &'static str,
}

impl Charged {
    /// The charge: a basis point of a thousand is 100 mils.
    pub fn mils(&self) -> i128 {
        100 * i128::from(self.basis_points) * i128::from(self.sum)
    }
}

impl Commodity {
    /// The matches, the amounts carried and the residual, which make up the charge.
    pub fn charged(&self) -> [Charged; 3] {
        let figures = &self.figures;
        [
            Charged {
                step: "matches",
                words: "matches, each on two sides",
                name: "matched_thousands",
                sum: figures.matches,
                basis_points: 300,
                rate: "2 x 1.5%",
            },
            Charged {
                step: "carried",
                words: "carried, at every step",
                name: "carried_thousands",
                sum: figures.carried,
                basis_points: 60,
                rate: "0.6%",
            },
            Charged {
                step: "residual",
                words: "residual",
                name: "residual_thousands",
                sum: figures.residual,
                basis_points: 1_500,
                rate: "15%",
            },
        ]
    }
}
