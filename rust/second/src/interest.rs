//! Interest: general risk by the maturity method (A.1, 8 to 13) under a loaded table
//! (document 02, P10), and specific risk (A.1, 3 to 7). The two are charged separately
//! (A.1, 2).

use crate::bands::{interest_band, zone_of_band};
use crate::book::{read, Class, Refusal, Row};
use crate::kinds::{FLOATING, GOVERNMENT, OTHER, QUALIFYING};
use crate::table::{read_table, Table, BANDS};
use crate::{figure, GROUPS};

/// The weighted longs and the weighted shorts of each band.
pub type Bands = [(i128, i128); BANDS];

/// What the ladder call gives: gross, the match sums, the residual and the charge.
#[derive(Clone, Copy, Debug, Default, PartialEq, Eq)]
pub struct InterestLadder {
    pub refusal: Refusal,
    pub gross: u64,
    pub vertical: u64,
    pub zone_1: u64,
    pub zone_2: u64,
    pub zone_3: u64,
    pub zones_1_2: u64,
    pub zones_2_3: u64,
    pub zones_1_3: u64,
    pub residual: u64,
    pub charge: u64,
}

/// The interest rows of one currency: each has a ladder of its own (A.1, 9).
pub fn currency(rows: &[Row], group: usize) -> Vec<Row> {
    let wanted = |row: &&Row| row.class == Class::Interest && row.group == group;
    rows.iter().filter(wanted).copied().collect()
}

/// The band of an interest row: a fixed rate goes by its maturity and a floating one by its next
/// fixing (A.1, 10), in the column of coupon 300 (document 02, P5).
fn band_of(row: &Row) -> usize {
    match row.floating() {
        true => interest_band(row.days, 300),
        false => interest_band(row.days, row.coupon),
    }
}

/// The weighted longs and the weighted shorts of each band (A.1, 11).
pub fn weighted(rows: &[Row], table: &Table) -> Bands {
    std::array::from_fn(|band| {
        let weight = table.weights[band];
        rows.iter()
            .filter(|row| band_of(row) == band)
            .fold((0, 0), |(long, short), row| {
                (long + row.long * weight, short + row.short * weight)
            })
    })
}

/// Longs against shorts over the net bands of a zone: the match and the signed rest
/// (A.1, 13).
fn offset(zone: usize, bands: &Bands) -> (i128, i128) {
    let inside = (0..BANDS).filter(|band| zone_of_band(*band) == zone);
    let nets = inside.map(|band| bands[band].0 - bands[band].1);
    let long: i128 = nets.clone().map(|net| 0.max(net)).sum();
    let short: i128 = nets.map(|net| 0.max(-net)).sum();
    (long.min(short), long - short)
}

/// Two zones against each other: the match, and what is left of each (A.1, 13).
fn against(one: i128, other: i128) -> (i128, i128, i128) {
    if one.signum() * other.signum() >= 0 {
        return (0, one, other);
    }
    let matched = one.abs().min(other.abs());
    (
        matched,
        one - matched * one.signum(),
        other - matched * other.signum(),
    )
}

/// The ladder over the weighted positions of one currency. Zones 1 and 2 come
/// first, and no position is used twice: document 01's order (A.1, 13).
pub fn ladder(bands: &Bands, table: &Table) -> InterestLadder {
    let gross: i128 = bands.iter().map(|(long, short)| long + short).sum();
    let vertical: i128 = bands.iter().map(|(long, short)| long.min(short)).sum();
    let zones = [1, 2, 3].map(|zone| offset(zone, bands));
    let [(zone_1, net_1), (zone_2, net_2), (zone_3, net_3)] = zones;
    let (zones_1_2, net_1, net_2) = against(net_1, net_2);
    let (zones_2_3, net_2, net_3) = against(net_2, net_3);
    let (zones_1_3, net_1, net_3) = against(net_1, net_3);
    let residual = (net_1 + net_2 + net_3).abs();
    // Of each match its per cent (A.1, 12 and 13).
    let disallowed = table.vertical * vertical
        + table.zones[0] * zone_1
        + table.zones[1] * zone_2
        + table.zones[2] * zone_3
        + table.adjacent * (zones_1_2 + zones_2_3)
        + table.zones_1_3 * zones_1_3;
    InterestLadder {
        refusal: Refusal::NONE,
        gross: figure(gross),
        vertical: figure(vertical),
        zone_1: figure(zone_1),
        zone_2: figure(zone_2),
        zone_3: figure(zone_3),
        zones_1_2: figure(zones_1_2),
        zones_2_3: figure(zones_2_3),
        zones_1_3: figure(zones_1_3),
        residual: figure(residual),
        // All of the residual is charged, whatever the table (A.1, 8; C.2).
        charge: figure(disallowed + 100 * residual),
    }
}

/// The interest ladder of one currency of a book under a table. The group is looked at first,
/// then the table, then the book.
pub fn interest_ladder(book: &[u8], table: &[u8], group: usize) -> InterestLadder {
    let refused = |refusal| InterestLadder {
        refusal,
        ..InterestLadder::default()
    };
    if group >= GROUPS {
        return refused(Refusal::of(10));
    }
    let table = match read_table(table) {
        Ok(table) => table,
        Err(refusal) => return refused(refusal),
    };
    match read(book) {
        Ok(rows) => ladder(&weighted(&currency(&rows, group), &table), &table),
        Err(refusal) => refused(refusal),
    }
}

/// The general charge: the ladders of all currencies, summed, in mils (A.1, 9).
pub fn general(rows: &[Row], table: &Table) -> i128 {
    let of = |group| ladder(&weighted(&currency(rows, group), table), table);
    (0..GROUPS).map(|group| i128::from(of(group).charge)).sum()
}

/// The specific charge of interest rows, long or short, in mils (A.1, 2 and 4).
pub fn specific(rows: &[Row]) -> i128 {
    rows.iter()
        .filter(|row| row.class == Class::Interest)
        .map(|row| row.amount() * specific_weight(row) * 100)
        .sum()
}

/// What a charge comes to for each currency's interest rows alone: all other rows are left
/// out, and the rest is charged like a book of its own (document 02, P6). No rows cost
/// nothing.
pub fn of_each_currency(charge: impl Fn(&[Row]) -> i128, rows: &[Row]) -> [u64; GROUPS] {
    std::array::from_fn(|group| match &currency(rows, group)[..] {
        [] => 0,
        own => figure(charge(own)),
    })
}

/// The specific weight of qualifying paper, in basis points, by the days to its final maturity:
/// up to 6 months, up to 24, and beyond (A.1, 4 and 6).
fn qualifying_weight(days: i128) -> i128 {
    match days {
        0..=180 => 25,
        181..=720 => 100,
        721..=36_000 => 160,
        _ => unreachable!("no interest row has {days} days"),
    }
}

/// The specific weight of an interest row, in basis points.
fn specific_weight(row: &Row) -> i128 {
    match row.kind {
        // A.1, 4 and 5.
        GOVERNMENT => 0,
        QUALIFYING => qualifying_weight(row.days),
        // A.1, 4 and 7.
        OTHER => 800,
        // By the final maturity too (A.1, 4), which stands in the place of the coupon.
        FLOATING => qualifying_weight(row.coupon),
        kind => unreachable!("no interest row has kind {kind}"),
    }
}

/// Which of the zones 1, 2 and 3 (A.1, 13) a currency uses, also at weight 0.
/// A refused book uses none.
pub fn zones_used(book: &[u8], group: usize) -> [bool; 3] {
    let rows = currency(&read(book).unwrap_or_default(), group);
    let zone = |row: &Row| zone_of_band(band_of(row));
    [1, 2, 3].map(|wanted| rows.iter().any(|row| zone(row) == wanted))
}

#[cfg(test)]
mod tests {
    use super::*;

    /// An interest row of a kind.
    fn of_kind(kind: u8) -> Row {
        Row {
            class: Class::Interest,
            group: 1,
            kind,
            days: 60,
            coupon: 300,
            issue: 0,
            long: 1,
            short: 0,
        }
    }

    /// Catches a new kind that is charged like one of the four, in silence.
    #[test]
    fn no_other_kind_has_a_specific_weight() {
        assert_eq!(
            [1, 2, 3, 4].map(|kind| specific_weight(&of_kind(kind))),
            [0, 25, 800, 100]
        );
        for kind in (0..=255).filter(|kind| !(1..=4).contains(kind)) {
            let weight = std::panic::catch_unwind(|| specific_weight(&of_kind(kind)));
            assert!(weight.is_err(), "kind {kind}");
        }
    }

    /// Catches a floating rate in the column below 300, by a final maturity that is taken for a
    /// coupon. The columns agree up to 360 days, and no accepted note fixes later: only days that
    /// none has can tell.
    #[test]
    fn a_floating_rate_takes_the_column_of_coupon_300() {
        let note = |days, coupon| Row {
            days,
            coupon,
            ..of_kind(FLOATING)
        };
        for maturity in [0, 1, 299, 300, 36_000] {
            assert_eq!(band_of(&note(700, maturity)), 4, "{maturity}");
            assert_eq!(band_of(&note(7_201, maturity)), 12, "{maturity}");
        }
        let bond = |coupon| Row {
            kind: QUALIFYING,
            ..note(700, coupon)
        };
        assert_eq!([300, 299].map(|coupon| band_of(&bond(coupon))), [4, 5]);
    }

    /// Catches a final maturity past the weights that is charged the last of them, in silence.
    #[test]
    fn no_days_past_the_last_have_a_specific_weight() {
        assert_eq!(qualifying_weight(36_000), 160);
        for days in [-1, 36_001] {
            assert!(std::panic::catch_unwind(|| qualifying_weight(days)).is_err());
        }
    }
}
