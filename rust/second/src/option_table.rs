//! The option table (document 02, P9): its positions, and who is told no. It is document 02's own;
//! the Amendment has none.

use crate::book::{number, Class, Refusal};
use crate::kinds;

/// The bytes of the count, and of one option.
const COUNT: usize = 2;
const ROW: usize = 18;

/// The most options that a table may have.
const MOST: usize = 1_000;

/// One option, as numbers wide enough for every later step.
#[derive(Clone, Copy, Debug)]
pub struct Position {
    pub class: Class,
    pub group: usize,
    /// Bought, or else sold.
    pub bought: bool,
    /// A call, or else a put.
    pub call: bool,
    pub kind: u8,
    /// The amount of the underlying, in thousands.
    pub value: i128,
    /// Ten-thousandths, without a sign.
    pub delta: i128,
    /// Ten-thousandths of delta for a move of 1% of the underlying.
    pub gamma: i128,
    /// Thousands for a point of volatility.
    pub vega: i128,
    /// Hundredths of a point.
    pub volatility: i128,
    pub days: u16,
}

impl Position {
    /// Gamma and vega are above zero when bought and below when sold.
    pub fn sign(&self) -> i128 {
        if self.bought {
            1
        } else {
            -1
        }
    }

    /// Whether the position gains when the underlying rises: bought calls and sold puts do.
    pub fn long(&self) -> bool {
        self.bought == self.call
    }

    /// Whether the fields that a book row has too are as in document 01 for the class, and the
    /// amount and delta are in their ranges. Gamma, vega and volatility may be any.
    fn in_range(&self) -> bool {
        let last_day = match self.class {
            Class::Commodity => 36_000,
            _ => 0,
        };
        self.group <= 31
            && kinds::of_class(self.class).contains(&self.kind)
            && (1..=1_000_000).contains(&self.value)
            && self.delta <= 10_000
            && self.days <= last_day
    }
}

/// The class of a number. Options on interest are not in the table.
fn class_of(number: u8) -> Option<Class> {
    match number {
        2 => Some(Class::Equity),
        3 => Some(Class::Exchange),
        4 => Some(Class::Commodity),
        _ => None,
    }
}

/// Whether an option is bought, and whether it is a call, by the number of its right.
fn right_of(number: u8) -> Option<(bool, bool)> {
    match number {
        0 => Some((true, true)),
        1 => Some((true, false)),
        2 => Some((false, true)),
        3 => Some((false, false)),
        _ => None,
    }
}

/// The option of 18 bytes, or none where a field is out of its range.
fn decode(bytes: &[u8]) -> Option<Position> {
    let pair = |at: usize| i128::from(number(&bytes[at..at + 2]));
    let (bought, call) = right_of(bytes[2])?;
    let position = Position {
        class: class_of(bytes[0])?,
        group: usize::from(bytes[1]),
        bought,
        call,
        kind: bytes[3],
        value: i128::from(number(&bytes[4..8])),
        delta: pair(8),
        gamma: pair(10),
        vega: pair(12),
        volatility: pair(14),
        days: u16::from_le_bytes([bytes[16], bytes[17]]),
    };
    position.in_range().then_some(position)
}

/// Whether a table has a count, at most 1,000, and as many rows as it counts.
fn whole(table: &[u8]) -> bool {
    if table.len() < COUNT {
        return false;
    }
    let count = number(&table[..COUNT]) as usize;
    count <= MOST && table.len() == COUNT + ROW * count
}

/// The positions of a table, or why it is refused: 16, or 17 with the first bad row.
pub fn positions(table: &[u8]) -> Result<Vec<Position>, Refusal> {
    if !whole(table) {
        return Err(Refusal::of(16));
    }
    let rows = table[COUNT..].chunks(ROW).enumerate();
    let read = |(row, bytes): (usize, &[u8])| {
        decode(bytes).ok_or(Refusal {
            row: row as u64,
            ..Refusal::of(17)
        })
    };
    rows.map(read).collect()
}
