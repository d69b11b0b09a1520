//! The commodities ladder: the maturity ladder approach (A.4, 7 to 10).

use crate::bands::commodity_band;
use crate::book::{read, Class, Refusal, Row};
use crate::{figure, GROUPS};

/// What the ladder call gives: three sums in amount units, the charge in mils.
#[derive(Clone, Copy, Debug, Default, PartialEq, Eq)]
pub struct CommodityLadder {
    pub refusal: Refusal,
    pub matches: u64,
    pub carried: u64,
    pub residual: u64,
    pub charge: u64,
}

/// The longs and the shorts of one band of one commodity (A.4, 8).
fn sides(rows: &[Row], group: usize, band: usize) -> (i128, i128) {
    rows.iter()
        .filter(|row| row.class == Class::Commodity && row.group == group)
        .filter(|row| commodity_band(row.days) == band)
        .fold((0, 0), |(long, short), row| {
            (long + row.long, short + row.short)
        })
}

/// The ladder of one commodity, from the nearest band outwards (A.4, 8 and 9).
fn ladder(rows: &[Row], group: usize) -> CommodityLadder {
    let (mut matches, mut carried, mut net) = (0, 0, 0i128);
    for band in 0..7 {
        carried += net.abs();
        let (long, short) = sides(rows, group, band);
        let (long, short) = (long + net.max(0), short + (-net).max(0));
        matches += long.min(short);
        net = long - short;
    }
    // 1.5% on both sides of a match (A.4, 8; C.3), 0.6% a step carried and 15% of what is
    // left (A.4, 9).
    let charge = 2 * 15_000 * matches + 6_000 * carried + 150_000 * net.abs();
    CommodityLadder {
        refusal: Refusal::NONE,
        matches: figure(matches),
        carried: figure(carried),
        residual: figure(net.abs()),
        charge: figure(charge),
    }
}

/// The ladder of one commodity of a book.
pub fn commodity_ladder(book: &[u8], group: usize) -> CommodityLadder {
    let refused = |refusal| CommodityLadder {
        refusal,
        ..CommodityLadder::default()
    };
    if group >= GROUPS {
        return refused(Refusal::of(10));
    }
    match read(book) {
        Ok(rows) => ladder(&rows, group),
        Err(refusal) => refused(refusal),
    }
}

/// The commodity charge: all 32 ladders, summed, in mils (A.4, 5 and 8).
pub fn charge(rows: &[Row]) -> i128 {
    (0..GROUPS)
        .map(|group| i128::from(ladder(rows, group).charge))
        .sum()
}
