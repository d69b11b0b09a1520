//! A loaded table: checked once, then looked up by the pass and by the ladders.

use crate::book::Bad;

/// The greatest weight, and the greatest per cent.
const MOST_WEIGHT: u16 = 2_000;
const MOST_PER_CENT: u8 = 100;

/// The weights of the bands, in basis points; the last place is no band.
pub type Weights = [u64; 16];

/// The weights, and the per cents of matches.
pub struct Table {
    pub weights: Weights,
    pub vertical: u64,
    pub zones: [u64; 3],
    pub adjacent: u64,
    pub zones_1_3: u64,
}

impl Table {
    /// Reads a table: refusals 18 and 19.
    #[inline(always)]
    pub fn open(bytes: &[u8]) -> Result<Table, Bad> {
        let refused = |number| Bad { number, row: 0 };
        let bytes: &[u8; 36] = bytes.try_into().map_err(|_| refused(18))?;
        let [.., vertical, one, two, three, adjacent, zones_1_3] = *bytes;
        let (weights, rising) = weights(bytes);
        let in_order = (vertical <= one.min(two).min(three))
            & (one.max(two).max(three) <= adjacent)
            & (adjacent <= zones_1_3)
            & (zones_1_3 <= MOST_PER_CENT);
        if !(rising & in_order) {
            return Err(refused(19));
        }
        Ok(Table {
            weights,
            vertical: vertical.into(),
            zones: [one, two, three].map(u64::from),
            adjacent: adjacent.into(),
            zones_1_3: zones_1_3.into(),
        })
    }
}

/// The weights, and whether they never fall and are not too high: none is above the last.
#[inline(always)]
fn weights(bytes: &[u8; 36]) -> (Weights, bool) {
    let (mut weights, mut before, mut rising) = ([0; 16], 0, true);
    for (weight, pair) in weights.iter_mut().zip(bytes[..30].chunks_exact(2)) {
        let next = u16::from_le_bytes([pair[0], pair[1]]);
        rising &= before <= next;
        before = next;
        *weight = u64::from(next);
    }
    (weights, rising & (before <= MOST_WEIGHT))
}
