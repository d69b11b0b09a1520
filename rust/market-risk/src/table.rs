//! The weights and per cents that an interest ladder is computed with.

use crate::{raw, Refusal};

/// A table that the library accepts: a weight for each of the fifteen bands, and the per cents
/// of the ladder's steps.
///
/// ```
/// use market_risk::Table;
/// let table = Table::amendment();
/// assert_eq!(table.weights()[14], 1_250);
/// assert_eq!(table.per_cents().zones, [40, 30, 30]);
/// assert_eq!(Table::new(table.bytes()), Ok(table));
/// assert_eq!(Table::new(&[0; 35]).unwrap_err().number, 18);
/// // Band 0 bears 1 basis point and band 1 none: the weights fall.
/// let mut falling = [0; 36];
/// falling[0] = 1;
/// assert_eq!(Table::new(&falling).unwrap_err().number, 19);
/// ```
#[derive(Clone, Copy, Debug, PartialEq, Eq)]
pub struct Table([u8; 36]);

/// What each step of a ladder bears, in per cents of what it matches.
#[derive(Clone, Copy, Debug, PartialEq, Eq)]
pub struct PerCents {
    /// Within a band.
    pub vertical: u8,
    /// Within zones 1, 2 and 3.
    pub zones: [u8; 3],
    /// Between zones 1 and 2, and between zones 2 and 3.
    pub adjacent: u8,
    /// Between zones 1 and 3.
    pub zones_1_3: u8,
}

impl Table {
    /// The table in these bytes, or its refusal: 18 or 19.
    pub fn new(bytes: &[u8]) -> Result<Table, Refusal> {
        // A table is tried before the book: a book of no bytes, which is refused with 1, gives
        // 18 or 19 exactly when the table is refused.
        let mut out = [0; 13];
        raw::interest_ladder(&[], bytes, 0, &mut out);
        let refusal = Refusal::read(&out);
        match bytes.try_into() {
            Ok(bytes) if !matches!(refusal.number, 18 | 19) => Ok(Table(bytes)),
            _ => Err(refusal),
        }
    }

    /// Document 01's table: the weights and per cents of the Amendment.
    pub fn amendment() -> Table {
        let mut bytes = [0; 36];
        raw::table(&mut bytes);
        Table(bytes)
    }

    /// The table as the calls take it.
    pub fn bytes(&self) -> &[u8; 36] {
        &self.0
    }

    /// The weight of each band, in basis points.
    pub fn weights(&self) -> [u16; 15] {
        std::array::from_fn(|band| u16::from_le_bytes([self.0[2 * band], self.0[2 * band + 1]]))
    }

    /// The per cents of the ladder's steps.
    pub fn per_cents(&self) -> PerCents {
        let [vertical, one, two, three, adjacent, zones_1_3] =
            std::array::from_fn(|place| self.0[30 + place]);
        PerCents {
            vertical,
            zones: [one, two, three],
            adjacent,
            zones_1_3,
        }
    }
}
