//! The steps of the interest ladder, from the rows of one currency.

use super::bands::{band, column, ZONES};
use super::same;
use books::Row;
use market_risk::{InterestLadder, PerCents, Table};

/// Longs and shorts.
pub type Sides = (i128, i128);

/// One step of the ladder: what stood against what, and what was matched.
pub struct Step {
    pub name: &'static str,
    pub sides: Option<Sides>,
    /// Of a match between zones: each zone, 0 to 2, and its net before the match.
    pub zones: Option<[(usize, i128); 2]>,
    pub matched: i128,
    pub per_cent: i128,
}

impl Step {
    /// Of a match between zones that is not of nothing: the zone that is long, then the one that is short.
    pub fn long_and_short(&self) -> Option<[usize; 2]> {
        let [(one, net), (other, _)] = self.zones.filter(|_| self.matched > 0)?;
        match net > 0 {
            true => Some([one, other]),
            false => Some([other, one]),
        }
    }
}

/// The amounts of each band of one currency.
pub fn amounts(rows: &[Row], group: u64) -> [Sides; 15] {
    let mut bands = [(0, 0); 15];
    for row in rows.iter().filter(|row| u64::from(row.group) == group) {
        let sides = &mut bands[band(column(row), row.days)];
        sides.0 += i128::from(row.long);
        sides.1 += i128::from(row.short);
    }
    bands
}

/// The weighted positions of amounts: each side times its band's weight.
pub fn weigh(amounts: &[Sides; 15], table: &Table) -> [Sides; 15] {
    let mut bands = *amounts;
    for (sides, weight) in bands.iter_mut().zip(table.weights().map(i128::from)) {
        *sides = (sides.0 * weight, sides.1 * weight);
    }
    bands
}

/// The longs and the shorts among nets.
fn sides(nets: &[i128]) -> Sides {
    let longs = nets.iter().map(|net| 0.max(*net)).sum();
    let shorts = nets.iter().map(|net| 0.max(-*net)).sum();
    (longs, shorts)
}

/// Sets nets against each other.
fn step(name: &'static str, nets: &[i128], per_cent: i128) -> Step {
    let (long, short) = sides(nets);
    Step {
        name,
        sides: Some((long, short)),
        zones: None,
        matched: long.min(short),
        per_cent,
    }
}

/// Sets two zones against each other and takes the match off both.
fn between(name: &'static str, zones: &mut [i128; 3], of: [usize; 2], per_cent: i128) -> Step {
    let step = step(name, &of.map(|zone| zones[zone]), per_cent);
    let before = of.map(|zone| (zone, zones[zone]));
    for zone in of {
        zones[zone] -= step.matched * zones[zone].signum();
    }
    Step {
        zones: Some(before),
        ..step
    }
}

/// All steps from the weighted bands, at a table's per cents, and the signed rest.
pub fn steps(bands: &[Sides; 15], per_cents: &PerCents) -> (Vec<Step>, i128) {
    let nets = bands.map(|(long, short)| long - short);
    let vertical = Step {
        name: "within bands",
        sides: None,
        zones: None,
        matched: bands.iter().map(|(long, short)| long.min(short)).sum(),
        per_cent: per_cents.vertical.into(),
    };
    let [in_1, in_2, in_3] = per_cents.zones.map(i128::from);
    let [adjacent, apart] = [per_cents.adjacent, per_cents.zones_1_3].map(i128::from);
    let zone = |zone: usize| &nets[ZONES[zone].clone()];
    let mut zones = [0, 1, 2].map(|number| zone(number).iter().sum());
    let steps = vec![
        vertical,
        step("within zone 1", zone(0), in_1),
        step("within zone 2", zone(1), in_2),
        step("within zone 3", zone(2), in_3),
        between("zones 1 and 2", &mut zones, [0, 1], adjacent),
        between("zones 2 and 3", &mut zones, [1, 2], adjacent),
        between("zones 1 and 3", &mut zones, [0, 2], apart),
    ];
    (steps, zones.iter().sum())
}

/// What the steps and the rest cost together, in mils.
pub fn charge(steps: &[Step], rest: i128) -> i128 {
    let disallowed: i128 = steps.iter().map(|step| step.matched * step.per_cent).sum();
    disallowed + 100 * rest.abs()
}

/// Fails where the bands do not lead to the library's figures.
pub fn cross_check(
    bands: &[Sides; 15],
    steps: &[Step],
    rest: i128,
    ladder: &InterestLadder,
) -> Result<(), String> {
    let [zone_1, zone_2, zone_3] = ladder.zones;
    let matches = [
        ladder.vertical,
        zone_1,
        zone_2,
        zone_3,
        ladder.zones_1_2,
        ladder.zones_2_3,
        ladder.zones_1_3,
    ];
    let gross: i128 = bands.iter().map(|(long, short)| long + short).sum();
    same("gross", gross, ladder.gross)?;
    for (step, library) in steps.iter().zip(matches) {
        same(step.name, step.matched, library)?;
    }
    same("residual", rest.abs(), ladder.residual)?;
    same("charge", charge(steps, rest), ladder.charge)?;
    let matched: i128 = steps.iter().map(|step| step.matched).sum();
    same(
        "twice the matches and the residual",
        2 * matched + rest.abs(),
        ladder.gross,
    )
}

#[cfg(test)]
mod tests {
    use super::*;
    use books::names::FLOATING;

    /// Weighted bands in which every step but that between zones 2 and 3 has a match.
    const BANDS: [Sides; 15] = {
        let mut bands = [(0, 0); 15];
        bands[1] = (200, 80);
        bands[2] = (0, 40);
        bands[3] = (7_000, 0);
        bands[4] = (250, 0);
        bands[5] = (0, 1_050);
        bands[7] = (825, 0);
        bands[9] = (0, 1_875);
        bands
    };

    /// What a right library gives of them: 10 x 80 + 40 x 40 + 30 x 250 + 30 x 825 +
    /// 40 x 800 + 100 x 1,050 + 100 x 5,230 is 694,650.
    fn ladder() -> InterestLadder {
        let mut ladder = InterestLadder::default();
        ladder.gross = 11_320;
        ladder.vertical = 80;
        ladder.zones = [40, 250, 825];
        ladder.zones_1_2 = 800;
        ladder.zones_1_3 = 1_050;
        ladder.residual = 5_230;
        ladder.charge = 694_650;
        ladder
    }

    /// Catches a floating-rate note in the band of its final maturity, or in the column below
    /// 300 by it. The columns agree up to 360 days: only days that no note has can tell.
    #[test]
    fn a_floating_rate_note_stands_where_it_fixes_in_the_first_column() {
        let row = Row::default().with_kind(FLOATING).with_sides(3, 0);
        for (days, band) in [(30, 0), (31, 1), (90, 1), (180, 2), (360, 3), (700, 4)] {
            for maturity in [0, 299, 300, 36_000] {
                let note = row.with_days(days).with_coupon(maturity);
                assert_eq!(amounts(&[note], 0)[band], (3, 0), "{days} {maturity}");
            }
        }
    }

    /// Catches a cross-check that does not look at a figure of the drawn ladder: a side of
    /// a band, a match, a per cent, or the rest.
    #[test]
    fn a_wrong_figure_of_the_drawing_is_told() {
        let check = |bands: &[Sides; 15], steps: &[Step], rest| {
            cross_check(bands, steps, rest, &ladder()).is_ok()
        };
        let (mut steps, rest) = steps(&BANDS, &Table::amendment().per_cents());
        assert!(check(&BANDS, &steps, rest));
        for band in 0..BANDS.len() {
            let mut wrong = BANDS;
            wrong[band].0 += 1;
            assert!(!check(&wrong, &steps, rest), "band {band} long");
            let mut wrong = BANDS;
            wrong[band].1 += 1;
            assert!(!check(&wrong, &steps, rest), "band {band} short");
        }
        for at in 0..steps.len() {
            steps[at].matched += 1;
            assert!(!check(&BANDS, &steps, rest), "match {at}");
            steps[at].matched -= 1;
            // Nothing is matched between zones 2 and 3 here, at whatever per cent.
            let per_cent = steps[at].per_cent;
            steps[at].per_cent /= 2;
            let unseen = steps[at].matched == 0;
            assert_eq!(check(&BANDS, &steps, rest), unseen, "per cent {at}");
            steps[at].per_cent = per_cent;
        }
        assert!(!check(&BANDS, &steps, rest + 1));
    }

    /// Catches a per cent that is another step's, or does not come from the table.
    #[test]
    fn each_step_has_its_own_per_cent() {
        let per_cents = PerCents {
            vertical: 1,
            zones: [2, 3, 4],
            adjacent: 5,
            zones_1_3: 6,
        };
        let (steps, _) = steps(&BANDS, &per_cents);
        let given: Vec<i128> = steps.iter().map(|step| step.per_cent).collect();
        assert_eq!(given, [1, 2, 3, 4, 5, 5, 6]);
    }
}
