//! The bands of both ladders, as a reader sees them.

use crate::text::whole;
use books::names::FLOATING;
use books::Row;

/// The last days of the interest bands, coupon 300 or more; the last band has none.
pub const ORDINARY: [u16; 12] = [
    30, 90, 180, 360, 720, 1080, 1440, 1800, 2520, 3600, 5400, 7200,
];

/// The last days of the interest bands, coupon below 300; the last band has none.
pub const LOW_COUPON: [u16; 14] = [
    30, 90, 180, 360, 684, 1008, 1296, 1548, 2052, 2628, 3348, 3816, 4320, 7200,
];

/// The last days of the commodity bands; the last band has none.
pub const COMMODITY: [u16; 6] = [30, 90, 180, 360, 720, 1080];

/// The bands of zones 1, 2 and 3.
pub const ZONES: [std::ops::Range<usize>; 3] = [0..4, 4..7, 7..15];

/// The last days of the interest bands for a row: a floating-rate note takes the first column.
pub fn column(row: &Row) -> &'static [u16] {
    match (row.kind, row.coupon) {
        (FLOATING, _) | (_, 300..) => &ORDINARY,
        _ => &LOW_COUPON,
    }
}

/// The first band whose last day is not below the days.
pub fn band(last_days: &[u16], days: u16) -> usize {
    last_days.iter().take_while(|last| **last < days).count()
}

/// The zone, 1 to 3, of an interest band.
pub fn zone(band: usize) -> usize {
    1 + ZONES.iter().take_while(|bands| bands.end <= band).count()
}

/// The days of a band in words, or a dash where the column has no such band.
pub fn span(last_days: &[u16], band: usize) -> String {
    let first = match band {
        0 => 0,
        _ => last_days.get(band - 1).map_or(0, |last| last + 1),
    };
    match last_days.get(band) {
        Some(last) => format!("{}-{}", whole(first), whole(*last)),
        None if band == last_days.len() => format!("over {}", whole(first - 1)),
        None => "-".into(),
    }
}

#[cfg(test)]
mod tests {
    use super::*;

    #[test]
    fn the_tables_are_the_second_calculation_s() {
        for days in 0..=36_000 {
            for coupon in [0, 299, 300, 10_000] {
                assert_eq!(
                    band(column(&Row::default().with_coupon(coupon)), days),
                    second::interest_band(days.into(), coupon.into())
                );
            }
            assert_eq!(
                band(&COMMODITY, days),
                second::commodity_band(i128::from(days))
            );
        }
        for (number, bands) in ZONES.iter().enumerate() {
            assert!(bands
                .clone()
                .all(|band| second::zone_of_band(band) == number + 1));
        }
        for band in 0..15 {
            assert_eq!(zone(band), second::zone_of_band(band));
        }
    }

    #[test]
    fn spans() {
        assert_eq!(span(&ORDINARY, 0), "0-30");
        assert_eq!(span(&ORDINARY, 8), "1,801-2,520");
        assert_eq!(span(&ORDINARY, 12), "over 7,200");
        assert_eq!(span(&ORDINARY, 13), "-");
        assert_eq!(span(&LOW_COUPON, 14), "over 7,200");
    }
}
