//! Least trades of one zone or two: limits at what an amount costs and a mil beside it, amounts at both ends of
//! their range, limits at theirs, every band and side, and trades that do not help.

use super::build::{only, row, Case};
use super::least_trade_build::{bond, Place, DAYS};

/// 100 of the bond: what 0 to 100 units cost, and a mil beside it.
fn limits() -> Vec<Case> {
    let bond = bond(100);
    let mut cases = [0, 47, 99, 100].map(|amount| bond.around(amount)).concat();
    // Some are small by their low bytes.
    let ends = [0, 1 << 32, (1 << 32) + 175_000, 1 << 63, u64::MAX];
    cases.extend(ends.map(|limit| bond.case(limit)));
    cases
}

/// Amounts of which each byte is at its ends, and the last ones: of so many bonds the last unit is matched or not.
fn ends() -> Vec<Case> {
    let mut cases = Vec::new();
    for amount in [255, 65_535] {
        cases.extend(bond(70_000).around(amount));
    }
    for long in [999_999, 1_000_000, 1_000_001] {
        let held = bond(long);
        let limit = held.charge(1_000_000.min(long as u64));
        cases.extend([limit, limit - 1].map(|limit| held.case(limit)));
    }
    // Two amounts that are one past the range and far past it.
    let past = bond(1_000_001);
    cases.push(past.case(past.charge(1_000_001)));
    cases.push(bond(1_000_000_000).case(1_750_000_000_000));
    cases
}

/// The same and the other side of each band, with so many on one side of it: to what 37 units cost, or a mil less.
fn bands() -> Vec<Case> {
    let mut cases = Vec::new();
    for (band, days) in (0..).zip(DAYS) {
        for (side, held) in [(1, 100), (0, -100)] {
            let group = [band, 31 - band][usize::from(side)];
            let book = only(0, &[row(group as u8, 1, days, 0, held)]);
            let place = Place::new(&book, group, band, side);
            let limit = place.charge(37);
            let less = if band == 0 { 0 } else { u64::from(1 - side) };
            cases.push(place.case(limit - less));
        }
    }
    cases
}

/// Bands whose weight is 0, in which nothing helps, and the side that the bond is on.
fn no_help() -> Vec<Case> {
    let nothing = Place {
        band: 0,
        ..bond(100)
    };
    let same = Place {
        side: 0,
        ..bond(100)
    };
    let within = [0, 1].map(|side| {
        Place {
            side,
            ..nothing.clone()
        }
        .case(1_750_000)
    });
    let none = [nothing.case(1_749_999), same.case(1_749_999)];
    [&within[..], &none, &[same.case(1_750_000)]].concat()
}

/// The bond with other bands: a unit matches in its zone or between zones, at per cents of their own.
fn other_bands() -> Vec<Case> {
    let place = |band| Place { band, ..bond(100) };
    let mut cases = Vec::new();
    for (band, amount) in [(3, 60), (4, 90), (6, 33), (7, 20), (14, 14)] {
        let limit = place(band).charge(amount);
        cases.extend([limit, limit - 1].map(|limit| place(band).case(limit)));
    }
    cases
}

/// All of them.
pub fn cases() -> Vec<Case> {
    [limits(), ends(), bands(), no_help(), other_bands()].concat()
}

#[cfg(test)]
mod tests {
    use super::super::least_trade_build::amounts;
    use super::*;

    /// 17,500 a unit, and 15,750 less for each that is added; 100 units cost the least.
    #[test]
    fn limits_by_hand() {
        let found = [0, 1, 0, 47, 48, 47, 99, 100, 99];
        let mut expected: Vec<Option<u64>> = found.map(Some).to_vec();
        expected.extend([Some(100), None, Some(100), None]);
        expected.extend([Some(0); 4]);
        assert_eq!(amounts(&limits()), expected);
    }

    /// Catches an end of the range that is not stored, or one that another end would answer alike.
    #[test]
    fn ends_by_hand() {
        let mut expected = Vec::new();
        for amount in [255, 65_535] {
            expected.extend([amount, amount + 1, amount].map(Some));
        }
        let (last, all) = (Some(999_999), Some(1_000_000));
        expected.extend([last, None, all, None, all, None]);
        expected.extend([None, None]);
        assert_eq!(amounts(&ends()), expected);
    }

    #[test]
    fn every_band_and_side_by_hand() {
        let mut expected = vec![Some(0); 2];
        expected.extend([Some(37), Some(38)].repeat(14));
        assert_eq!(amounts(&bands()), expected);
        let none = [Some(0), Some(0), None, None, Some(0)];
        assert_eq!(amounts(&no_help()), none);
    }

    /// Zone 1 at 40%, band 3 of 70: 4,200 less a unit. Zone 2 at 30%: 125 and 225 are 8,750 and 15,750 less. Zone 3 at
    /// 40%: 275 and 1,250 are 16,500 and 75,000 less, and 14 units of the last use the bond up.
    #[test]
    fn other_bands_by_hand() {
        let mut expected = [60, 61, 90, 91, 33, 34, 20, 21, 14].map(Some).to_vec();
        expected.push(None);
        assert_eq!(amounts(&other_bands()), expected);
    }
}
