//! Where figures stand along an axis, and the figures that are written beside it.

/// A straight scale: where zero stands, and how far on each unit.
#[derive(Clone, Copy)]
pub struct Scale {
    zero: f64,
    each: f64,
}

impl Scale {
    /// From a place for zero to another for the most, which may be zero too.
    pub fn new(zero: f64, end: f64, most: i128) -> Scale {
        let each = (end - zero) / most.max(1) as f64;
        Scale { zero, each }
    }

    /// The place of a figure.
    pub fn at(&self, figure: i128) -> f64 {
        self.zero + self.each * figure as f64
    }
}

/// The least step of 1, 2 or 5 and zeros that goes at most so often into a figure.
fn step(most: i128, times: i128) -> i128 {
    let mut ten = 1;
    loop {
        let found = [1, 2, 5].into_iter().map(|digit| digit * ten);
        let mut found = found.filter(|step| most / step <= times);
        match found.next() {
            Some(step) => return step,
            None => ten *= 10,
        }
    }
}

/// Round figures from the lowest, which is not above zero, to the highest, about so many.
pub fn ticks(lowest: i128, highest: i128, times: i128) -> Vec<i128> {
    let step = step(highest - lowest, times);
    (lowest / step..=highest / step)
        .map(|at| at * step)
        .collect()
}

#[cfg(test)]
mod tests {
    use super::*;

    /// Catches figures past an end, uneven steps and too many of them.
    #[test]
    fn figures_beside_an_axis_are_round() {
        assert_eq!(ticks(0, 735, 4), [0, 200, 400, 600]);
        assert_eq!(ticks(-525, 1_050, 4), [-500, 0, 500, 1_000]);
        assert_eq!(ticks(0, 3, 4), [0, 1, 2, 3]);
        assert_eq!(ticks(0, 0, 4), [0]);
    }

    #[test]
    fn a_scale_runs_straight_between_its_ends() {
        let scale = Scale::new(100.0, 20.0, 40);
        let places = [0, 10, 40, -10].map(|figure| scale.at(figure));
        assert_eq!(places, [100.0, 80.0, 20.0, 120.0]);
        assert_eq!(Scale::new(100.0, 20.0, 0).at(0), 100.0);
    }
}
