//! The ladder's table: weights and per cents, those of document 01 or a supervisor's own
//! (document 02, P10).

use crate::bands::interest_weight;
use crate::book::{number, Refusal};

/// How many bands have a weight.
pub const BANDS: usize = 15;

/// The bytes of a table: a weight is two, low byte first, and a per cent one.
pub const TABLE_BYTES: usize = 2 * BANDS + 6;

/// What a table holds.
#[derive(Clone, Copy, Debug, PartialEq, Eq)]
pub struct Table {
    /// The weight of each band, in basis points.
    pub weights: [i128; BANDS],
    /// The per cent of a match within a band.
    pub vertical: i128,
    /// The per cents of matches within zones 1, 2 and 3.
    pub zones: [i128; 3],
    /// The per cent of a match between zones 1 and 2, or 2 and 3.
    pub adjacent: i128,
    /// The per cent of a match between zones 1 and 3.
    pub zones_1_3: i128,
}

/// Document 01's table: the weights of Table 1 (A.1, 11); 10% within a band (A.1, 12); within
/// zones and between them by Table 2 (A.1, 13).
pub fn table() -> [u8; TABLE_BYTES] {
    let mut bytes = [0; TABLE_BYTES];
    for band in 0..BANDS {
        let weight = interest_weight(band) as u16;
        bytes[2 * band..2 * band + 2].copy_from_slice(&weight.to_le_bytes());
    }
    bytes[2 * BANDS..].copy_from_slice(&[10, 40, 30, 30, 40, 100]);
    bytes
}

/// The weights and per cents of 36 bytes.
fn decode(bytes: &[u8; TABLE_BYTES]) -> Table {
    let weight = |band: usize| i128::from(number(&bytes[2 * band..2 * band + 2]));
    let [.., vertical, zone_1, zone_2, zone_3, adjacent, zones_1_3] = bytes.map(i128::from);
    Table {
        weights: std::array::from_fn(weight),
        vertical,
        zones: [zone_1, zone_2, zone_3],
        adjacent,
        zones_1_3,
    }
}

impl Table {
    /// The conditions of an accepted table, one by one.
    fn conditions(&self) -> [bool; 6] {
        let zones = &self.zones;
        [
            // Weights never fall from a band to the next.
            self.weights.windows(2).all(|pair| pair[0] <= pair[1]),
            // They are at most 2,000.
            self.weights.iter().all(|weight| *weight <= 2_000),
            // Vertical is at most each zone's.
            zones.iter().all(|zone| self.vertical <= *zone),
            // Each zone's is at most adjacent.
            zones.iter().all(|zone| *zone <= self.adjacent),
            // Adjacent is at most 1-3.
            self.adjacent <= self.zones_1_3,
            // And that is at most 100.
            self.zones_1_3 <= 100,
        ]
    }
}

/// What a table holds, or why it is refused: 18 for its length, 19 for a broken condition.
pub fn read_table(bytes: &[u8]) -> Result<Table, Refusal> {
    let whole: &[u8; TABLE_BYTES] = bytes.try_into().map_err(|_| Refusal::of(18))?;
    let table = decode(whole);
    match table.conditions() == [true; 6] {
        true => Ok(table),
        false => Err(Refusal::of(19)),
    }
}

#[cfg(test)]
mod tests {
    use super::*;

    /// A table that every change by one below takes to a limit or past it.
    const BASE: Table = Table {
        weights: [500; BANDS],
        vertical: 40,
        zones: [40; 3],
        adjacent: 40,
        zones_1_3: 40,
    };

    /// The bytes of a table.
    fn bytes(table: &Table) -> Vec<u8> {
        let weights = table.weights.map(|weight| (weight as u16).to_le_bytes());
        let [zone_1, zone_2, zone_3] = table.zones;
        let last = [table.adjacent, table.zones_1_3];
        let per_cents = [table.vertical, zone_1, zone_2, zone_3].map(|cent| cent as u8);
        [
            &weights.concat(),
            &per_cents[..],
            &last.map(|cent| cent as u8),
        ]
        .concat()
    }

    /// The table must be refused for one condition alone.
    fn alone(condition: usize, table: Table) {
        let mut expected = [true; 6];
        expected[condition] = false;
        assert_eq!(table.conditions(), expected, "{table:?}");
        assert_eq!(read_table(&bytes(&table)), Err(Refusal::of(19)));
    }

    /// The table must be accepted, and read as it is.
    fn accepted(table: Table) {
        assert_eq!(read_table(&bytes(&table)), Ok(table));
    }

    /// Weights that change from a band on.
    fn from(band: usize, before: i128, after: i128) -> Table {
        let weight = |at: usize| if at < band { before } else { after };
        Table {
            weights: std::array::from_fn(weight),
            ..BASE
        }
    }

    /// Catches a pair of bands that is not compared: from each band on, and in each band alone.
    #[test]
    fn each_weight_that_falls_by_one() {
        for band in 1..BANDS {
            alone(0, from(band, 500, 499));
            accepted(from(band, 499, 500));
            let mut dip = BASE;
            dip.weights[band] = 499;
            alone(0, dip);
        }
        accepted(BASE);
    }

    /// Catches a limit of weights that is off by one, or is not that of every band. The weights
    /// after one that is too high must be too high as well, or they fall.
    #[test]
    fn each_weight_that_is_2001() {
        for band in 0..BANDS {
            alone(1, from(band, 2_000, 2_001));
            accepted(from(band, 1_999, 2_000));
        }
        alone(1, from(BANDS - 1, 0, 65_535));
        accepted(from(0, 0, 2_000));
    }

    /// Catches a zone whose place in the order is not tested, on either side of it.
    #[test]
    fn each_per_cent_that_is_one_over_the_next() {
        for zone in 0..3 {
            let mut low = BASE;
            low.zones[zone] = 39;
            alone(2, low);
            let mut high = BASE;
            high.zones[zone] = 41;
            alone(3, high);
        }
        alone(
            4,
            Table {
                zones_1_3: 39,
                ..BASE
            },
        );
        let most = Table {
            zones_1_3: 100,
            ..BASE
        };
        accepted(most);
        for zones_1_3 in [101, 255] {
            alone(5, Table { zones_1_3, ..most });
        }
    }

    /// Every per cent one below the next, zones apart from each other, and all equal.
    #[test]
    fn tables_at_the_limits_are_accepted() {
        for per_cent in [0, 1, 99, 100] {
            accepted(Table {
                weights: [2_000; BANDS],
                vertical: per_cent,
                zones: [per_cent; 3],
                adjacent: per_cent,
                zones_1_3: per_cent,
            });
        }
        for zones in [[1, 2, 3], [3, 2, 1], [2, 3, 1]] {
            accepted(Table {
                weights: [0; BANDS],
                vertical: 1,
                zones,
                adjacent: 3,
                zones_1_3: 4,
            });
        }
    }

    #[test]
    fn document_01_s_table_is_accepted() {
        let table = read_table(&table()).unwrap();
        assert_eq!(table.weights, std::array::from_fn(interest_weight));
        assert_eq!((table.vertical, table.zones), (10, [40, 30, 30]));
        assert_eq!((table.adjacent, table.zones_1_3), (40, 100));
    }
}
