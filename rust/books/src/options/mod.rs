//! An option table (document 02, P9) as a list of options, and its bytes.

pub mod csv;
pub mod damage;
pub mod names;
pub mod random;

/// The bytes of the count, and of one option.
pub const COUNT_BYTES: usize = 2;
pub const OPTION_BYTES: usize = 18;

/// The most options of an accepted table.
pub const MOST_OPTIONS: usize = 1_000;

/// One option with every field that its 18 bytes hold.
#[derive(Clone, Copy, Debug, Default, PartialEq, Eq)]
pub struct OptionRow {
    /// 2 equity, 3 foreign exchange, 4 commodities.
    pub class: u8,
    pub group: u8,
    /// 0 bought call, 1 bought put, 2 sold call, 3 sold put.
    pub right: u8,
    pub kind: u8,
    /// The amount of the underlying, in thousands.
    pub amount: u32,
    /// In ten-thousandths.
    pub delta: u16,
    /// The ten-thousandths by which delta changes when the underlying moves by 1%.
    pub gamma: u16,
    /// In thousands for a point of volatility.
    pub vega: u16,
    /// In hundredths of a point.
    pub volatility: u16,
    pub days: u16,
}

impl OptionRow {
    /// The option's 18 bytes, low byte first in each field.
    pub fn encode(&self) -> [u8; OPTION_BYTES] {
        let mut bytes = [0; OPTION_BYTES];
        bytes[..4].copy_from_slice(&[self.class, self.group, self.right, self.kind]);
        bytes[4..8].copy_from_slice(&self.amount.to_le_bytes());
        let short = [
            self.delta,
            self.gamma,
            self.vega,
            self.volatility,
            self.days,
        ];
        for (field, value) in bytes[8..].chunks_exact_mut(2).zip(short) {
            field.copy_from_slice(&value.to_le_bytes());
        }
        bytes
    }

    /// The fields of 18 bytes.
    pub fn decode(bytes: &[u8; OPTION_BYTES]) -> OptionRow {
        let two = |at: usize| u16::from_le_bytes([bytes[at], bytes[at + 1]]);
        OptionRow {
            class: bytes[0],
            group: bytes[1],
            right: bytes[2],
            kind: bytes[3],
            amount: u32::from(two(4)) | u32::from(two(6)) << 16,
            delta: two(8),
            gamma: two(10),
            vega: two(12),
            volatility: two(14),
            days: two(16),
        }
    }
}

/// The bytes of a table of options. More than 65,535 have no count and give nothing.
pub fn encode(options: &[OptionRow]) -> Option<Vec<u8>> {
    let count = u16::try_from(options.len()).ok()?;
    let mut bytes = count.to_le_bytes().to_vec();
    for option in options {
        bytes.extend(option.encode());
    }
    Some(bytes)
}

/// The options of a table whose length agrees with its count, else nothing.
pub fn decode(bytes: &[u8]) -> Option<Vec<OptionRow>> {
    let (count, rows) = bytes.split_first_chunk::<COUNT_BYTES>()?;
    if rows.len() != OPTION_BYTES * usize::from(u16::from_le_bytes(*count)) {
        return None;
    }
    let rows = rows.chunks_exact(OPTION_BYTES);
    let whole = |row: &[u8]| OptionRow::decode(row.try_into().expect("18 bytes"));
    Some(rows.map(whole).collect())
}

#[cfg(test)]
mod tests {
    use super::*;

    /// Catches fields that stand in another place, or with their high byte first.
    #[test]
    fn each_field_has_its_bytes() {
        let option = OptionRow {
            class: 2,
            group: 3,
            right: 1,
            kind: 5,
            amount: 0x0908_0706,
            delta: 0x0b0a,
            gamma: 0x0d0c,
            vega: 0x0f0e,
            volatility: 0x1110,
            days: 0x1312,
        };
        let bytes = [
            2, 3, 1, 5, 6, 7, 8, 9, 10, 11, 12, 13, 14, 15, 16, 17, 18, 19,
        ];
        assert_eq!(option.encode(), bytes);
        assert_eq!(OptionRow::decode(&bytes), option);
        let table = [&[1, 0][..], &bytes].concat();
        assert_eq!(encode(&[option]), Some(table.clone()));
        assert_eq!(decode(&table), Some(vec![option]));
        assert_eq!(decode(&table[..19]), None);
        assert_eq!(decode(&[0, 0]), Some(vec![]));
        assert_eq!(decode(&[0]), None);
    }
}
