//! The two tables of time bands, as ranges of days.

/// The band of an interest row: Table 1 (A.1, 11), by the column of its coupon.
pub fn interest_band(days: i128, coupon: i128) -> usize {
    if coupon >= 300 {
        ordinary_band(days)
    } else {
        low_coupon_band(days)
    }
}

/// Coupons of 3% and more: the first column of Table 1 (A.1, 11).
fn ordinary_band(days: i128) -> usize {
    match days {
        0..=30 => 0,
        31..=90 => 1,
        91..=180 => 2,
        181..=360 => 3,
        361..=720 => 4,
        721..=1080 => 5,
        1081..=1440 => 6,
        1441..=1800 => 7,
        1801..=2520 => 8,
        2521..=3600 => 9,
        3601..=5400 => 10,
        5401..=7200 => 11,
        7201..=36_000 => 12,
        _ => unreachable!("no interest row has {days} days"),
    }
}

/// Coupons below 3%: the second column of Table 1 (A.1, 11).
fn low_coupon_band(days: i128) -> usize {
    match days {
        0..=30 => 0,
        31..=90 => 1,
        91..=180 => 2,
        181..=360 => 3,
        361..=684 => 4,
        685..=1008 => 5,
        1009..=1296 => 6,
        1297..=1548 => 7,
        1549..=2052 => 8,
        2053..=2628 => 9,
        2629..=3348 => 10,
        3349..=3816 => 11,
        3817..=4320 => 12,
        4321..=7200 => 13,
        7201..=36_000 => 14,
        _ => unreachable!("no interest row has {days} days"),
    }
}

/// The weight of a band in document 01's table, in basis points: Table 1 (A.1, 11).
pub fn interest_weight(band: usize) -> i128 {
    match band {
        0 => 0,
        1 => 20,
        2 => 40,
        3 => 70,
        4 => 125,
        5 => 175,
        6 => 225,
        7 => 275,
        8 => 325,
        9 => 375,
        10 => 450,
        11 => 525,
        12 => 600,
        13 => 800,
        14 => 1250,
        _ => unreachable!("no interest band {band}"),
    }
}

/// The zone of a band: 1, 2 or 3 (A.1, 13, footnotes 12 and 13).
pub fn zone_of_band(band: usize) -> usize {
    match band {
        0..=3 => 1,
        4..=6 => 2,
        7..=14 => 3,
        _ => unreachable!("no interest band {band}"),
    }
}

/// The band of a commodity row, 0 to 6: Table 7 (A.4, 8).
pub fn commodity_band(days: i128) -> usize {
    match days {
        0..=30 => 0,
        31..=90 => 1,
        91..=180 => 2,
        181..=360 => 3,
        361..=720 => 4,
        721..=1080 => 5,
        1081..=36_000 => 6,
        _ => unreachable!("no commodity row has {days} days"),
    }
}

#[cfg(test)]
mod tests {
    use super::*;
    use std::panic::catch_unwind;

    /// Catches a band or days past the tables that take the last weight, in silence.
    #[test]
    fn nothing_past_the_tables_has_a_band_a_weight_or_a_zone() {
        assert_eq!((interest_weight(14), zone_of_band(14)), (1250, 3));
        assert!(catch_unwind(|| interest_weight(15)).is_err());
        assert!(catch_unwind(|| zone_of_band(15)).is_err());
        for days in [-1, 36_001] {
            assert!(catch_unwind(|| interest_band(days, 300)).is_err());
            assert!(catch_unwind(|| interest_band(days, 299)).is_err());
            assert!(catch_unwind(|| commodity_band(days)).is_err());
        }
    }
}
