//! The kinds of rows by name. Their numbers are document 01's own, and for floating rates 02's.

use crate::book::Class;

// Interest (A.1, 4 to 7).
pub const GOVERNMENT: u8 = 1;
pub const QUALIFYING: u8 = 2;
pub const OTHER: u8 = 3;
/// Qualifying paper with a floating rate (document 02, P5).
pub const FLOATING: u8 = 4;

// Equity (A.2, 3 and 7).
pub const ORDINARY: u8 = 1;
pub const DIVERSIFIED: u8 = 2;
pub const INDEX: u8 = 3;

/// Foreign exchange and commodities have no kinds.
const NONE: u8 = 0;

/// Every kind that a row of a class may have.
pub fn of_class(class: Class) -> &'static [u8] {
    match class {
        Class::Interest => &[GOVERNMENT, QUALIFYING, OTHER, FLOATING],
        Class::Equity => &[ORDINARY, DIVERSIFIED, INDEX],
        Class::Exchange | Class::Commodity => &[NONE],
    }
}
