//! The dearest book: its contents, and one row as many times as are asked for.

/// A row of the dearest book: other paper (kind 3) of currency 0 at 36,000 (0x8ca0) days, coupon 0.
const ROW: [u8; 16] = [0, 3, 0xa0, 0x8c, 0, 0, 0, 0, 0, 0, 0, 0, 0, 0, 0, 0];

/// What a unit of amount costs in it, in mils.
const RATE: u64 = 205_000;

/// Number, row, book; the length of the dearest book at the front of `out`; its total.
pub fn dearest(rows: usize, most: usize, out: &mut [u8], result: &mut [u64; 5]) {
    *result = match write(rows, most, out) {
        Ok(length) => {
            let total = RATE * (rows as u64 * most as u64);
            [0, 0, 0, length as u64, total]
        }
        Err(number) => [number, 0, 0, 0, 0],
    }
}

/// Writes the book and gives its length, or the number of the refusal.
#[inline(always)]
fn write(rows: usize, most: usize, out: &mut [u8]) -> Result<usize, u64> {
    if rows > 4_000 || !(1..=1_000_000_000).contains(&most) {
        return Err(22);
    }
    let out = out.get_mut(..8 + 16 * rows).ok_or(12u64)?;
    let (head, body) = out.split_at_mut(8);
    head.copy_from_slice(&(rows as u64).to_le_bytes());
    let mut row = ROW;
    row[8..12].copy_from_slice(&(most as u32).to_le_bytes());
    for place in body.chunks_exact_mut(16) {
        place.copy_from_slice(&row);
    }
    Ok(8 + 16 * rows)
}
