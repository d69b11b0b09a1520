//! Foreign exchange and commodities alone, with 15% of each commodity's net and 3% of its gross.

use crate::book::{Bad, Book};
use crate::{fill, ladders};

/// The refusal of interest and equity rows.
const NOT_SMALL: Bad = Bad { number: 20, row: 0 };

/// Number, row, book; foreign exchange, commodities, total.
pub fn small_bank(bytes: &[u8], out: &mut [u64; 6]) {
    fill(out, charges(bytes));
}

/// The three figures. The gross of all commodities is one sum: 3% is the same of each.
#[inline(always)]
fn charges(bytes: &[u8]) -> Result<[u64; 3], Bad> {
    let book = Book::open(bytes)?;
    if book.counts[0] + book.counts[1] > 0 {
        return Err(NOT_SMALL);
    }
    let (mut exchange, mut commodity, mut gross) = ([0; 32], [0i64; 32], 0);
    book.each(2, |row| exchange[row.group()] += row.net())?;
    book.each(3, |row| {
        commodity[row.group()] += row.net();
        gross += row.amount();
    })?;
    let open: u64 = commodity.iter().map(|net| net.unsigned_abs()).sum();
    let charges = [
        ladders::exchange(&exchange),
        150_000 * open + 30_000 * gross,
    ];
    Ok([charges[0], charges[1], charges[0] + charges[1]])
}
