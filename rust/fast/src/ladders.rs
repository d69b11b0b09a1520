//! The charges of the sums, in mils.

use crate::pass::{Commodity, Currency, Sides, Sums, SUM};
use crate::table::Table;

/// The numbers of the bits that are set.
fn groups(mut bits: u32) -> impl Iterator<Item = usize> {
    std::iter::from_fn(move || {
        let group = bits.trailing_zeros();
        bits &= bits.wrapping_sub(1);
        (group < 32).then_some(group as usize)
    })
}

/// Takes the match off both of two opposite nets and gives it.
#[inline(always)]
fn offset(one: &mut i64, other: &mut i64) -> u64 {
    let opposite = i64::from((*one ^ *other) < 0);
    let matched = opposite * (one.unsigned_abs().min(other.unsigned_abs()) as i64);
    *one -= matched * one.signum();
    *other -= matched * other.signum();
    matched as u64
}

/// The vertical matches of a zone's bands, the match of the zone and its net.
#[inline(always)]
pub fn zone(bands: &[Sides]) -> (u64, u64, i64) {
    let (mut vertical, mut long, mut short) = (0, 0, 0);
    for sides in bands {
        let matched = sides[0].min(sides[1]);
        vertical += matched;
        long += sides[0] - matched;
        short += sides[1] - matched;
    }
    (vertical, long.min(short), long as i64 - short as i64)
}

/// The ten figures of one currency's ladder, in the order of the ladder call.
#[inline(always)]
pub fn currency(bands: &Currency, table: &Table) -> [u64; 10] {
    let gross = bands[..SUM].iter().flatten().sum();
    let (vertical_1, zone_1, mut one) = zone(&bands[..4]);
    let (vertical_2, zone_2, mut two) = zone(&bands[4..7]);
    let (vertical_3, zone_3, mut three) = zone(&bands[7..15]);
    let vertical = vertical_1 + vertical_2 + vertical_3;
    let zones_1_2 = offset(&mut one, &mut two);
    let zones_2_3 = offset(&mut two, &mut three);
    let zones_1_3 = offset(&mut one, &mut three);
    let residual = (one + two + three).unsigned_abs();
    let charge = table.vertical * vertical
        + table.zones[0] * zone_1
        + table.zones[1] * zone_2
        + table.zones[2] * zone_3
        + table.adjacent * (zones_1_2 + zones_2_3)
        + table.zones_1_3 * zones_1_3
        + 100 * residual;
    [
        gross, vertical, zone_1, zone_2, zone_3, zones_1_2, zones_2_3, zones_1_3, residual, charge,
    ]
}

/// The specific and the general charge of each currency that has rows, written to its place
/// in two lists, and their sums.
#[inline(always)]
pub fn interest(
    sums: &Sums,
    table: &Table,
    specifics: &mut [u64],
    generals: &mut [u64],
) -> [u64; 2] {
    let mut both = [0; 2];
    for group in groups(sums.currencies) {
        let bands = &sums.interest[group];
        let (specific, general) = (100 * bands[SUM][0], currency(bands, table)[9]);
        (specifics[group], generals[group]) = (specific, general);
        both = [both[0] + specific, both[1] + general];
    }
    both
}

/// The general equity charge of the nets of all markets.
pub fn equity(nets: &[i64; 32]) -> u64 {
    let open = nets.iter().map(|net| net.unsigned_abs());
    80_000 * open.sum::<u64>()
}

/// The foreign exchange charge of the nets of all groups.
pub fn exchange(nets: &[i64; 32]) -> u64 {
    let longs: i64 = nets[1..].iter().map(|net| 0.max(*net)).sum();
    let shorts: i64 = nets[1..].iter().map(|net| 0.max(-*net)).sum();
    80_000 * (longs.max(shorts) as u64 + nets[0].unsigned_abs())
}

/// The four figures of one commodity's ladder, in the order of the ladder call.
#[inline(always)]
pub fn commodity(bands: &Commodity) -> [u64; 4] {
    let (mut matches, mut carried, mut net) = (0, 0, 0i64);
    for sides in &bands[..7] {
        carried += net.unsigned_abs();
        let long = sides[0] + net.max(0) as u64;
        let short = sides[1] + (-net).max(0) as u64;
        matches += long.min(short);
        net = long as i64 - short as i64;
    }
    let residual = net.unsigned_abs();
    let charge = 30_000 * matches + 6_000 * carried + 150_000 * residual;
    [matches, carried, residual, charge]
}

/// The charge of the commodities whose bits are set.
pub fn commodities(bands: &[Commodity; 32], used: u32) -> u64 {
    groups(used).map(|group| commodity(&bands[group])[3]).sum()
}
