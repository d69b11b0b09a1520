//! Zones: where they begin, and how they are matched within and between.

mod common;
use common::*;
use second::zones_used;

#[test]
fn zones_begin_at_bands_4_and_7() {
    for (days, zone) in [(0, 0), (360, 0), (361, 1), (1440, 1), (1441, 2)] {
        let mut used = [false; 3];
        used[zone] = true;
        assert_eq!(zones_used(&interest(&[bond(days, 1)]), 7), used);
    }
    assert_eq!(zones_used(&interest(&[bond(0, 1)]), 6), [false; 3]);
}

/// Catches a zone that is found by the final maturity: a floating rate fixes within the year.
#[test]
fn a_floating_rate_lies_in_zone_1() {
    for (fixing, maturity) in [(0, 0), (0, 36_000), (90, 2880), (360, 361), (360, 1440)] {
        let book = interest(&[row(7, 4, fixing, maturity, 1)]);
        assert_eq!(zones_used(&book, 7), [true, false, false]);
    }
}

#[test]
fn within_zones_the_percentages_differ() {
    for (days, other, per_cent) in [(60, 90 + 1, 40), (400, 800, 30), (1500, 8000, 30)] {
        let weights = |days: u16| interest_ladder(&interest(&[bond(days, 1)]), 7).gross as i64;
        let (one, two) = (weights(days), weights(other));
        let ladder = interest_ladder(&interest(&[bond(days, two), bond(other, -one)]), 7);
        assert_eq!(ladder.charge, (one * two * per_cent) as u64);
    }
}

/// What zones 1, 2 and 3 hold, and the matches 1-2, 2-3, 1-3 and residual that follow.
const BETWEEN_ZONES: [([i64; 3], [u64; 4]); 13] = [
    ([1, 2, 3], [0, 0, 0, 6]),
    ([-1, 2, 3], [1, 0, 0, 4]),
    ([1, -2, 3], [1, 1, 0, 2]),
    ([1, 2, -3], [0, 2, 1, 0]),
    ([1, -2, -3], [1, 0, 0, 4]),
    ([3, 1, 2], [0, 0, 0, 6]),
    ([3, -1, -2], [1, 0, 2, 0]),
    ([3, 1, -2], [0, 1, 1, 2]),
    ([3, -1, 2], [1, 0, 0, 4]),
    ([2, 1, -1], [0, 1, 0, 2]),
    ([1, 0, -3], [0, 0, 1, 2]),
    ([0, 2, -1], [0, 1, 0, 1]),
    ([1, -1, 1], [1, 0, 0, 1]),
];

#[test]
fn zones_are_matched_in_order_whatever_their_sides() {
    // 75 at 0.70%, 30 at 1.75% and 10 at 5.25% weigh the same.
    let places = [(270, 75), (900, 30), (6000, 10)];
    for (zones, expected) in BETWEEN_ZONES {
        for side in [1, -1] {
            let held = zones.iter().zip(places).filter(|(size, _)| **size != 0);
            let rows = held.map(|(size, (days, amount))| bond(days, side * size * amount));
            let ladder = interest_ladder(&interest(&rows.collect::<Vec<_>>()), 7);
            let matches = [ladder.zones_1_2, ladder.zones_2_3, ladder.zones_1_3];
            let [one_two, two_three, one_three, residual] = expected.map(|size| size * 5250);
            assert_eq!(matches, [one_two, two_three, one_three], "{zones:?}");
            assert_eq!(ladder.residual, residual, "{zones:?}");
            let disallowed = 40 * (one_two + two_three) + 100 * (one_three + residual);
            assert_eq!(ladder.charge, disallowed);
        }
    }
}
