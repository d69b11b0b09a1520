//! Bands and specific weights, as tables.

/// The last days of the interest bands: coupons of 300 and more, then those below.
const HIGH: [usize; 12] = [
    30, 90, 180, 360, 720, 1080, 1440, 1800, 2520, 3600, 5400, 7200,
];
const LOW: [usize; 14] = [
    30, 90, 180, 360, 684, 1008, 1296, 1548, 2052, 2628, 3348, 3816, 4320, 7200,
];

/// Specific weights of interest rows, by kind, and by final maturity up to 180 days, 720 and over.
pub static SPECIFIC: [[u64; 4]; 8] = [
    [0; 4],
    [0; 4],
    [25, 100, 160, 0],
    [800, 800, 800, 0],
    [25, 100, 160, 0],
    [0; 4],
    [0; 4],
    [0; 4],
];

/// Specific weights of equity rows, by kind.
pub static EQUITY: [u64; 8] = [0, 800, 400, 200, 0, 0, 0, 0];

/// Days share a cell by sixes: every last day is a multiple of 6.
const CELLS: usize = 65_535 / 6 + 2;

/// A number for each cell.
type Cells = [u8; CELLS];

/// The cell of some days. `div_ceil` would compare once more.
#[inline(always)]
#[allow(clippy::manual_div_ceil)]
pub fn cell(days: u16) -> usize {
    (usize::from(days) + 5) / 6
}

/// The interest band of each cell. Both columns have the same bands up to 360 days, so that for
/// a floating-rate note it does not matter which one its final maturity picks as if a coupon.
pub static INTEREST: [Cells; 2] = [cells(&HIGH), cells(&LOW)];

/// The commodity band of each cell.
pub static COMMODITY: Cells = cells(&[30, 90, 180, 360, 720, 1080]);

/// How many of the ends lie before each cell.
const fn cells(ends: &[usize]) -> Cells {
    let mut table = [0; CELLS];
    let mut cell = 0;
    while cell < CELLS {
        table[cell] = before(ends, 6 * cell) as u8;
        cell += 1;
    }
    table
}

/// How many of the ends are below some days.
const fn before(ends: &[usize], days: usize) -> usize {
    let mut at = 0;
    while at < ends.len() && ends[at] < days {
        at += 1;
    }
    at
}
