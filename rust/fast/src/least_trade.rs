//! The least trade: every amount is tried, in order. What no amount changes is worked out once: the
//! weighted sums, the other bands of the zone, and the matches and nets of the other zones.

use crate::book::Bad;
use crate::ladders::zone;
use crate::pass::{Currency, Sides};
use crate::table::Table;
use crate::{fill, positions, NO_GROUP};

/// The largest amount that is tried.
const MOST: u64 = 1_000_000;

/// The refusal of a band or a side.
const NO_BAND: Bad = Bad { number: 21, row: 0 };

/// The zone of each band, from 0.
const ZONES: [usize; 15] = [0, 0, 0, 0, 1, 1, 1, 2, 2, 2, 2, 2, 2, 2, 2];

/// The matches of adjacent zones, the match 1-3, and the residual. Twice all matches and the residual
/// are all that the zones have: of the matches only 1-3 must be looked for.
#[inline(always)]
fn between([one, two, three]: [i64; 3]) -> [u64; 3] {
    let gross = one.unsigned_abs() + two.unsigned_abs() + three.unsigned_abs();
    let residual = (one + two + three).unsigned_abs();
    // Zone 2 comes first: its longs take from the shorts of zones 1 and 3, its shorts from their longs.
    let (longs, shorts) = (two.max(0), -two.min(0));
    let long_short = (one - shorts).min(-three - longs);
    let short_long = (-one - longs).min(three - shorts);
    let zones_1_3 = long_short.max(short_long).max(0) as u64;
    [(gross - residual) / 2 - zones_1_3, zones_1_3, residual]
}

/// What a currency holds beside a trade in one of its bands.
struct Held {
    /// The band's own sides. The trade is added to the first.
    own: Sides,
    /// The other bands of its zone, net: those on the side of the trade, and those on the other.
    beside: Sides,
    /// The nets of the zones; that of its own is not looked at.
    nets: [i64; 3],
    /// What the matches cost that no trade changes.
    fixed: u64,
}

impl Held {
    /// The bands of a currency, with one of them set apart.
    #[inline(always)]
    fn new(mut bands: Currency, band: usize, table: &Table) -> Held {
        let own = std::mem::take(&mut bands[band]);
        let zones = [zone(&bands[..4]), zone(&bands[4..7]), zone(&bands[7..15])];
        let (_, matched, net) = zones[ZONES[band]];
        let mut fixed = 0;
        for (at, (vertical, matched, _)) in zones.into_iter().enumerate() {
            let elsewhere = u64::from(at != ZONES[band]);
            fixed += table.vertical * vertical + elsewhere * table.zones[at] * matched;
        }
        Held {
            own,
            beside: [matched + net.max(0) as u64, matched + (-net).max(0) as u64],
            nets: zones.map(|zone| zone.2),
            fixed,
        }
    }

    /// The charge with a weighted amount added, which changes the net of this zone alone.
    #[inline(always)]
    fn charge<const ZONE: usize>(&self, added: u64, table: &Table) -> u64 {
        let long = self.own[0] + added;
        let vertical = long.min(self.own[1]);
        let long = self.beside[0] + long - vertical;
        let short = self.beside[1] + self.own[1] - vertical;
        let mut nets = self.nets;
        nets[ZONE] = long as i64 - short as i64;
        let [adjacent, zones_1_3, residual] = between(nets);
        self.fixed
            + table.vertical * vertical
            + table.zones[ZONE] * long.min(short)
            + table.adjacent * adjacent
            + table.zones_1_3 * zones_1_3
            + 100 * residual
    }

    /// The first amount with which the charge is at most the limit.
    #[inline(always)]
    fn least<const ZONE: usize>(&self, weight: u64, limit: u64, table: &Table) -> Option<u64> {
        let within = |amount: &u64| self.charge::<ZONE>(amount * weight, table) <= limit;
        (0..=MOST).find(within)
    }
}

/// 1 and the least amount, or zeros where there is none.
#[inline(always)]
fn least(
    bytes: &[u8],
    table: &[u8],
    group: usize,
    band: usize,
    side: usize,
    limit: u64,
) -> Result<[u64; 2], Bad> {
    let group = (group < 32).then_some(group).ok_or(NO_GROUP)?;
    let table = Table::open(table)?;
    if band > 14 || side > 1 {
        return Err(NO_BAND);
    }
    let mut bands = positions(bytes, group, &table)?;
    // Mirrored, a currency is charged the same: then the trade is long.
    if side == 1 {
        bands.iter_mut().for_each(|sides| sides.swap(0, 1));
    }
    let (held, weight) = (Held::new(bands, band, &table), table.weights[band]);
    let least = match ZONES[band] {
        0 => held.least::<0>(weight, limit, &table),
        1 => held.least::<1>(weight, limit, &table),
        _ => held.least::<2>(weight, limit, &table),
    };
    Ok(least.map_or([0, 0], |amount| [1, amount]))
}

/// Number, row, book; 1 where an amount brings the charge within the limit; the least that does.
pub fn least_trade(
    bytes: &[u8],
    table: &[u8],
    group: usize,
    band: usize,
    side: usize,
    limit: u64,
    out: &mut [u64; 5],
) {
    fill(out, least(bytes, table, group, band, side, limit));
}
