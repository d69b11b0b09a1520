//! A table of the interest ladder, its bytes and text, and random tables.

pub mod random;
pub mod text;

/// The bands of a table.
pub const BANDS: usize = 15;

/// The bytes of a table.
pub const TABLE_BYTES: usize = 36;

/// The fields that the 36 bytes of a table hold.
#[derive(Clone, Copy, Debug, PartialEq, Eq)]
pub struct Table {
    /// The weights of the bands, in basis points.
    pub weights: [u16; BANDS],
    pub vertical: u8,
    /// Within zones 1, 2 and 3.
    pub zones: [u8; 3],
    /// Between zones 1 and 2, and 2 and 3.
    pub adjacent: u8,
    /// Between zones 1 and 3.
    pub zones_1_3: u8,
}

impl Table {
    /// The table's bytes: weights with their low byte first, then the per cents.
    pub fn encode(&self) -> Vec<u8> {
        let mut bytes = self.weights.map(u16::to_le_bytes).concat();
        bytes.push(self.vertical);
        bytes.extend(self.zones);
        bytes.extend([self.adjacent, self.zones_1_3]);
        bytes
    }

    /// The fields of 36 bytes, else nothing.
    pub fn decode(bytes: &[u8]) -> Option<Table> {
        let bytes: [u8; TABLE_BYTES] = bytes.try_into().ok()?;
        let weight = |band: usize| u16::from_le_bytes([bytes[2 * band], bytes[2 * band + 1]]);
        let [.., vertical, zone_1, zone_2, zone_3, adjacent, zones_1_3] = bytes;
        Some(Table {
            weights: std::array::from_fn(weight),
            vertical,
            zones: [zone_1, zone_2, zone_3],
            adjacent,
            zones_1_3,
        })
    }
}

#[cfg(test)]
mod tests {
    use super::*;

    #[test]
    fn fields_lie_where_document_02_puts_them() {
        let bytes: Vec<u8> = (1..=36).collect();
        let table = Table::decode(&bytes).unwrap();
        assert_eq!((table.weights[0], table.weights[14]), (0x0201, 0x1e1d));
        assert_eq!((table.vertical, table.zones), (31, [32, 33, 34]));
        assert_eq!((table.adjacent, table.zones_1_3), (35, 36));
        assert_eq!(table.encode(), bytes);
        assert_eq!(Table::decode(&bytes[..35]), None);
        assert_eq!(Table::decode(&[0; 37]), None);
    }
}
