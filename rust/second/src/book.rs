//! The book file: its rows, and who is told no. The file and the refusals are documents 01's
//! and 02's own; the Amendment has neither.

use crate::kinds::{self, FLOATING};

/// The four classes of rows, in file order.
#[derive(Clone, Copy, Debug, PartialEq, Eq, Hash)]
pub enum Class {
    Interest,
    Equity,
    Exchange,
    Commodity,
}

/// The classes in the order of their counts and bodies.
pub const CLASSES: [Class; 4] = [
    Class::Interest,
    Class::Equity,
    Class::Exchange,
    Class::Commodity,
];

/// The greatest amount that a row may have.
pub const LIMIT: i128 = 1_000_000_000;

/// One row, as numbers wide enough for every later step.
#[derive(Clone, Copy, Debug)]
pub struct Row {
    pub class: Class,
    pub group: usize,
    pub kind: u8,
    /// Bytes 2-3: days to maturity; of a floating rate, to the next fixing.
    pub days: i128,
    /// Bytes 4-5: the coupon; of a floating rate, the days to final maturity.
    pub coupon: i128,
    /// Bytes 6-7: the issue number, or 0. No charge looks at it.
    pub issue: u64,
    pub long: i128,
    pub short: i128,
}

impl Row {
    /// The row's amount, whichever side it is on, at current value (Introduction I, 5).
    pub fn amount(&self) -> i128 {
        self.long + self.short
    }

    /// The amount with its sign: longs above zero, shorts below.
    pub fn net(&self) -> i128 {
        self.long - self.short
    }

    /// Whether this is a floating-rate note (document 02, P5).
    pub fn floating(&self) -> bool {
        self.class == Class::Interest && self.kind == FLOATING
    }
}

/// Why a call was refused: the number of document 01 or 02, the row and the book.
/// All three are 0 when the call was accepted.
#[derive(Clone, Copy, Debug, Default, PartialEq, Eq)]
pub struct Refusal {
    pub number: u64,
    pub row: u64,
    pub book: u64,
}

impl Refusal {
    /// No refusal at all.
    pub const NONE: Refusal = Refusal::of(0);

    /// A refusal that names no row.
    pub const fn of(number: u64) -> Refusal {
        Refusal {
            number,
            row: 0,
            book: 0,
        }
    }

    /// Whether the call was accepted.
    pub fn accepted(&self) -> bool {
        self.number == 0
    }
}

/// A number of up to eight bytes, low byte first.
pub fn number(bytes: &[u8]) -> u64 {
    bytes
        .iter()
        .rev()
        .fold(0, |high, byte| high * 256 + u64::from(*byte))
}

/// The four row counts at the head of a file of at least eight bytes.
pub fn counts(book: &[u8]) -> [u64; 4] {
    [0, 2, 4, 6].map(|at| number(&book[at..at + 2]))
}

/// The fields of one 16-byte row of a class.
fn decode(class: Class, bytes: &[u8]) -> Row {
    Row {
        class,
        group: usize::from(bytes[0]),
        kind: bytes[1],
        days: i128::from(number(&bytes[2..4])),
        coupon: i128::from(number(&bytes[4..6])),
        issue: number(&bytes[6..8]),
        long: i128::from(number(&bytes[8..12])),
        short: i128::from(number(&bytes[12..16])),
    }
}

/// Whether a floating-rate note fixes within a year, and matures within a hundred years but not
/// before it fixes (document 02, P5).
fn fixes_in_time(note: &Row) -> bool {
    let (fixing, maturity) = (note.days, note.coupon);
    fixing <= 360 && maturity <= 36_000 && fixing <= maturity
}

/// The number of the first fault of a row, or 0. Of a floating-rate note, 15 is tried in the
/// place of 6 and 7.
fn row_fault(row: &Row) -> u64 {
    let (last_day, last_coupon) = match row.class {
        Class::Interest => (36_000, 10_000),
        Class::Equity | Class::Exchange => (0, 0),
        Class::Commodity => (36_000, 0),
    };
    let one_side = (row.long == 0) != (row.short == 0);
    let faults = [
        (4, row.group > 31),
        (5, !kinds::of_class(row.class).contains(&row.kind)),
        (15, row.floating() && !fixes_in_time(row)),
        (6, !row.floating() && row.days > last_day),
        (7, !row.floating() && row.coupon > last_coupon),
        (8, !one_side),
        (9, row.long > LIMIT || row.short > LIMIT),
    ];
    faults
        .iter()
        .find(|fault| fault.1)
        .map_or(0, |fault| fault.0)
}

/// The number of the fault of the contents, 1 to 3, or 0.
fn contents_fault(book: &[u8]) -> u64 {
    if book.len() < 8 {
        return 1;
    }
    let rows: u64 = counts(book).iter().sum();
    if rows > 4_000 {
        2
    } else if book.len() as u64 != 8 + 16 * rows {
        3
    } else {
        0
    }
}

/// The rows of a file whose contents are in order, class after class.
fn rows_of(book: &[u8]) -> Vec<Row> {
    let classes = CLASSES
        .iter()
        .zip(counts(book))
        .flat_map(|(class, count)| (0..count).map(|_| *class));
    classes
        .zip(book[8..].chunks(16))
        .map(|(class, bytes)| decode(class, bytes))
        .collect()
}

/// Whether the contents of a book are in order, and if not, why.
pub fn contents(book: &[u8]) -> Result<(), Refusal> {
    match contents_fault(book) {
        0 => Ok(()),
        fault => Err(Refusal::of(fault)),
    }
}

/// The rows of a book whose contents are in order, or the refusal of the first bad one.
pub fn good_rows(book: &[u8]) -> Result<Vec<Row>, Refusal> {
    let rows = rows_of(book);
    match rows.iter().position(|row| row_fault(row) != 0) {
        None => Ok(rows),
        Some(bad) => Err(Refusal {
            number: row_fault(&rows[bad]),
            row: bad as u64,
            book: 0,
        }),
    }
}

/// The rows of a book, or why it is refused.
pub fn read(book: &[u8]) -> Result<Vec<Row>, Refusal> {
    contents(book)?;
    good_rows(book)
}

/// Whether a book is accepted, and if not, why.
pub fn check(book: &[u8]) -> Refusal {
    read(book).err().unwrap_or(Refusal::NONE)
}
