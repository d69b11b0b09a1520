//! Swap legs that offset each other: the rows are checked in one pass, the legs are paired off, and
//! what is left is copied. For each leg the later ones are searched in order by their amounts.

use crate::book::{Bad, Book, MOST_ROWS};
use crate::row::Row;
use std::ops::Range;

/// How many legs are looked at at once.
const BLOCK: usize = 16;

/// Interest rows in file order, N at most, and what each has on its side: the signed amount of a leg
/// that is still there, and 0 for every other row. Their currencies are asked for by their places.
pub struct Legs<G, const N: usize> {
    groups: G,
    pub amounts: [i32; N],
    days: [u16; N],
    coupons: [u16; N],
    pub count: usize,
}

/// Whether days and coupons of two legs are close enough: no branch.
#[inline(always)]
fn close(one: [u16; 2], two: [u16; 2]) -> bool {
    let near = one[0].min(two[0]);
    let most = 7 * u16::from(near >= 30) + 23 * u16::from(near > 360);
    (one[1].abs_diff(two[1]) <= 15) & (one[0].abs_diff(two[0]) <= most)
}

impl<G: Fn(usize) -> usize, const N: usize> Legs<G, N> {
    /// No rows yet.
    #[inline(always)]
    pub fn new(groups: G) -> Self {
        Legs {
            groups,
            amounts: [0; N],
            days: [0; N],
            coupons: [0; N],
            count: 0,
        }
    }

    /// Takes an accepted row in, with an amount of its own.
    #[inline(always)]
    pub fn push(&mut self, row: Row, net: i64) {
        let place = self.count;
        self.amounts[place] = i32::from(row.is_leg()) * net as i32;
        (self.days[place], self.coupons[place]) = (row.days(), row.coupon());
        self.count += 1;
    }

    /// Days and coupon of the row at a place.
    #[inline(always)]
    fn terms(&self, at: usize) -> [u16; 2] {
        [self.days[at], self.coupons[at]]
    }

    /// The first leg of some places that fits the leg at a place.
    #[inline(always)]
    fn within(&self, places: Range<usize>, leg: usize) -> Option<usize> {
        let fits = |at: &usize| {
            let close = close(self.terms(leg), self.terms(*at));
            let opposite = self.amounts[*at] == -self.amounts[leg];
            opposite & close && (self.groups)(*at) == (self.groups)(leg)
        };
        places.into_iter().find(fits)
    }

    /// Whether a leg of a block may fit: first by the amounts alone, then by days and coupons.
    #[inline(always)]
    fn may_fit(&self, from: usize, leg: usize) -> bool {
        let (block, wanted) = (from..from + BLOCK, -self.amounts[leg]);
        let amounts = self.amounts[block.clone()].iter();
        if !amounts.fold(false, |any, own| any | (*own == wanted)) {
            return false;
        }
        let (own, days) = (self.terms(leg), self.days[block.clone()].iter());
        let terms = days.zip(&self.coupons[block]);
        terms.fold(false, |any, (days, coupon)| {
            any | close(own, [*days, *coupon])
        })
    }

    /// The first leg after a place that fits the one there, block by block.
    #[inline(always)]
    fn partner(&self, at: usize) -> Option<usize> {
        let mut from = at + 1;
        while from + BLOCK <= self.count {
            if self.may_fit(from, at) {
                if let Some(found) = self.within(from..from + BLOCK, at) {
                    return Some(found);
                }
            }
            from += BLOCK;
        }
        self.within(from..self.count, at)
    }

    /// Takes the legs that fit away, in pairs, and gives how many pairs there are.
    #[inline(always)]
    pub fn pair_off(&mut self) -> usize {
        let mut pairs = 0;
        for at in 0..self.count {
            if self.amounts[at] == 0 {
                continue;
            }
            if let Some(found) = self.partner(at) {
                (self.amounts[at], self.amounts[found]) = (0, 0);
                pairs += 1;
            }
        }
        pairs
    }
}

/// Copies the rows that are left: all but legs that were taken away.
#[inline(always)]
fn copy(rows: &[u8], amounts: &[i32], to: &mut std::slice::ChunksExactMut<u8>) {
    for (row, amount) in rows.chunks_exact(16).zip(amounts) {
        let leg = Row::decode(row.try_into().expect("16 bytes")).is_leg();
        if !leg || *amount != 0 {
            to.next().expect("room for each row").copy_from_slice(row);
        }
    }
}

/// Offsets a book of at most N interest rows and gives the length of what is written. Each class
/// has a loop of its own, with its limits in it.
#[inline(always)]
fn within<const N: usize>(book: &Book, out: &mut [u8]) -> Result<usize, Bad> {
    let rows = book.bodies[0];
    let mut legs = Legs::<_, N>::new(|at| usize::from(rows[16 * at]));
    book.each(0, |row| legs.push(row, row.net()))?;
    book.each(1, |_| ())?;
    book.each(2, |_| ())?;
    book.each(3, |_| ())?;
    let pairs = legs.pair_off();
    let length = 8 + 16 * (book.rows - 2 * pairs);
    let out = out.get_mut(..length).ok_or(Bad { number: 12, row: 0 })?;
    let (head, body) = out.split_at_mut(8);
    let (interest, mut rest) = body.split_at_mut(16 * (legs.count - 2 * pairs));
    copy(
        rows,
        &legs.amounts[..legs.count],
        &mut interest.chunks_exact_mut(16),
    );
    let counts = [
        legs.count - 2 * pairs,
        book.counts[1],
        book.counts[2],
        book.counts[3],
    ];
    for (place, count) in head.chunks_exact_mut(2).zip(counts) {
        place.copy_from_slice(&(count as u16).to_le_bytes());
    }
    for other in &book.bodies[1..] {
        let (place, after) = rest.split_at_mut(other.len());
        place.copy_from_slice(other);
        rest = after;
    }
    Ok(length)
}

/// Number, row, book; the length of the written book at the front of `out`. A small book has a small
/// array.
pub fn offset(bytes: &[u8], out: &mut [u8], result: &mut [u64; 4]) {
    let written = Book::open(bytes).and_then(|book| match book.counts[0] {
        0..=64 => within::<64>(&book, out),
        65..=512 => within::<512>(&book, out),
        _ => within::<MOST_ROWS>(&book, out),
    });
    *result = match written {
        Ok(length) => [0, 0, 0, length as u64],
        Err(bad) => [bad.number, bad.row as u64, 0, 0],
    }
}
