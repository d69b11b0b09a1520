//! The rows that the least trade is looked for in: government bonds of coupon 800, mostly of one currency.

use books::{Book, Random, Row};

/// The currency that is asked for.
pub const CURRENCY: u8 = 7;

/// A bond of it.
fn bond(days: u16, long: u32, short: u32) -> Row {
    let row = Row::default().with_group(CURRENCY).with_kind(1);
    row.with_days(days).with_coupon(800).with_sides(long, short)
}

/// Longs in each band, so that shorts are matched in their band, then in their zone.
pub fn longs(random: &mut Random, rows: usize, _: usize) -> Vec<Row> {
    let days = [
        15, 60, 120, 270, 540, 900, 1260, 1620, 2160, 3060, 4500, 6300, 8000,
    ];
    let row = |at: usize| bond(days[at % 13], 50_000 + random.below(100_000) as u32, 0);
    (0..rows).map(row).collect()
}

/// The same in all 32 currencies.
pub fn of_all_currencies(random: &mut Random, rows: usize, at: usize) -> Vec<Row> {
    let longs = longs(random, rows, at).into_iter();
    longs
        .map(|row| row.with_group(random.below(32) as u8))
        .collect()
}

/// The amount with which the charge of the rows below is least, in the book with this number.
pub fn bottom(at: usize) -> u64 {
    360_000 + 45_000 * at as u64
}

/// An amount in so many parts.
fn parts(amount: u64, count: usize) -> impl Iterator<Item = u32> {
    let upto = move |part: usize| amount * part as u64 / count as u64;
    (0..count).map(move |at| (upto(at + 1) - upto(at)) as u32)
}

/// Zones 1, 2 and 3 as 75 long, 60 short and 20 short at 70, 175 and 525: with 90 long in zone 2 the charge
/// is least. It falls by 60% of the trade before, and rises by 40% after.
pub fn dip(_: &mut Random, rows: usize, at: usize) -> Vec<Row> {
    let (unit, half, quarter) = (bottom(at) / 90, rows / 2, rows / 4);
    let one = parts(75 * unit, half).map(|amount| bond(270, amount, 0));
    let two = parts(60 * unit, quarter).map(|amount| bond(900, 0, amount));
    let three = parts(20 * unit, rows - half - quarter).map(|amount| bond(6_000, 0, amount));
    one.chain(two).chain(three).collect()
}

/// Longs in zone 1, more than shorts of 1,000,000 in zone 3 weigh: they are matched at 100%, and the charge
/// stays as it is.
pub fn plateau(random: &mut Random, rows: usize, _: usize) -> Vec<Row> {
    let row = |_| bond(270, 200_000 + random.below(50_000) as u32, 0);
    (0..rows).map(row).collect()
}

/// A book of interest rows in any order.
pub fn book(random: &mut Random, mut rows: Vec<Row>) -> Vec<u8> {
    random.shuffle(&mut rows);
    let mut book = Book::default();
    book.classes[0] = rows;
    book.encode().expect("at most 4,000 rows")
}
