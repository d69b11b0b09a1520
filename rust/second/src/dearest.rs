//! The dearest book (document 02, P14). Of rows of one unit of amount the dearest is found by charging
//! each alone, and the book is as many of these as are asked for, each of the largest amount.
//!
//! That is enough: a row alone costs so much for each unit of its amount; no book costs more than its
//! rows do one by one, since what is matched costs no more than its two sides apart; and equal rows on
//! one side match nothing, so that they cost as much together.

use crate::bands::{commodity_band, interest_band};
use crate::book::{Class, Refusal, CLASSES, LIMIT};
use crate::kinds;
use crate::written::{file, write};
use crate::{charge, table};
use std::sync::LazyLock;

/// What the call gives: its refusal, or the length of the book that is written and its total in mils.
#[derive(Clone, Copy, Debug, Default, PartialEq, Eq)]
pub struct Dearest {
    pub refusal: Refusal,
    pub length: u64,
    pub total: u64,
}

/// What a row has besides an amount: it is in group 0 and has no issue number.
#[derive(Clone, Copy, Debug, PartialEq, Eq)]
struct Terms {
    class: Class,
    kind: u8,
    days: u16,
    coupon: u16,
    long: bool,
}

impl Terms {
    /// The 16 bytes of the row with an amount.
    fn bytes(&self, amount: u32) -> Vec<u8> {
        let sides = if self.long { [amount, 0] } else { [0, amount] };
        let fields = [
            &[0, self.kind][..],
            &self.days.to_le_bytes(),
            &self.coupon.to_le_bytes(),
            &[0, 0],
            &sides.map(u32::to_le_bytes).concat(),
        ];
        fields.concat()
    }

    /// A book of so many of these rows.
    fn book(&self, rows: usize, amount: u32) -> Vec<u8> {
        file(&vec![(self.class, self.bytes(amount)); rows])
    }

    /// What one unit of amount costs in this row alone, in mils, where the row is accepted.
    fn rate(&self) -> Option<u64> {
        let report = charge(&self.book(1, 1), &table());
        report.refusal.accepted().then_some(report.total)
    }
}

/// Every number of days at which a band ends, of either column of interest or of commodities, the last
/// first, and 0, which is all that shares and foreign exchange have.
fn days_to_try() -> Vec<u16> {
    let bands = |days: u16| {
        let days = i128::from(days);
        let columns = [300, 0].map(|coupon| interest_band(days, coupon));
        (columns, commodity_band(days))
    };
    let tried = |days: &u16| [0, 36_000].contains(days) || bands(*days) != bands(*days + 1);
    (0..=36_000).rev().filter(tried).collect()
}

/// The coupons that are tried of a kind: the lowest of either column, and for a floating-rate note, which
/// has days to final maturity there, these days.
fn coupons_to_try(class: Class, kind: u8, days: &[u16]) -> &[u16] {
    match (class, kind) {
        (Class::Interest, kinds::FLOATING) => days,
        _ => &[0, 300],
    }
}

/// Rows of every class, kind, band and side, longs first.
fn terms() -> Vec<Terms> {
    let all_days = days_to_try();
    let kinds = CLASSES.map(|class| {
        kinds::of_class(class)
            .iter()
            .map(move |kind| (class, *kind))
    });
    let mut terms = Vec::new();
    for (class, kind) in kinds.into_iter().flatten() {
        for days in all_days.iter().copied() {
            for coupon in coupons_to_try(class, kind, &all_days).iter().copied() {
                terms.extend([true, false].map(|long| Terms {
                    class,
                    kind,
                    days,
                    coupon,
                    long,
                }));
            }
        }
    }
    terms
}

/// The dearest of these rows. Of equally dear ones it is the first: the last days of its band, the lowest
/// coupon of its column, long.
static DEAREST: LazyLock<Terms> = LazyLock::new(|| {
    let rated = |terms: &Terms| terms.rate().map(|rate| (rate, *terms));
    let rated: Vec<(u64, Terms)> = terms().iter().filter_map(rated).collect();
    let most = rated.iter().map(|(rate, _)| *rate).max();
    let first = rated.iter().find(|(rate, _)| Some(*rate) == most);
    first.expect("a row that is accepted").1
});

/// The dearest book of so many rows, each of at most so much, or why there is none.
pub fn dearest_book(rows: u64, most: u64) -> Result<Vec<u8>, Refusal> {
    if rows > 4_000 || !(1..=LIMIT).contains(&i128::from(most)) {
        return Err(Refusal::of(22));
    }
    Ok(DEAREST.book(rows as usize, most as u32))
}

/// Writes that book to the front of `out`, and gives its length and what it costs under document 01's
/// table; the bytes past it keep their values.
pub fn dearest(rows: u64, most: u64, out: &mut [u8]) -> Dearest {
    let written = dearest_book(rows, most).and_then(|book| Ok((write(&book, out)?, book)));
    match written {
        Err(refusal) => Dearest {
            refusal,
            ..Dearest::default()
        },
        Ok((length, book)) => Dearest {
            refusal: Refusal::NONE,
            length,
            total: charge(&book, &table()).total,
        },
    }
}

#[cfg(test)]
mod tests {
    use super::*;

    /// What a unit costs at most in the rows that are so.
    fn most(so: impl Fn(&Terms) -> bool) -> u64 {
        let rates = terms()
            .into_iter()
            .filter(so)
            .filter_map(|terms| terms.rate());
        rates.max().unwrap()
    }

    /// Catches a search that leaves out a class, a kind or a band: what a unit costs at most in each
    /// class, by document 01. Interest: 8% specific and 12.5% of other paper past 7,200 days. Equity: 8%
    /// twice. Foreign exchange: 8%. Commodities: 15%, and six steps of 0.6%.
    #[test]
    fn the_dearest_row_of_each_class() {
        let rates = CLASSES.map(|class| most(|terms| terms.class == class));
        assert_eq!(rates, [205_000, 160_000, 80_000, 186_000]);
    }

    /// The same by kinds of interest: government 12.5%, qualifying 1.6% more, and a note 1.6% and the
    /// 0.7% of a year to its fixing.
    #[test]
    fn the_dearest_row_of_each_kind() {
        let interest = |terms: &Terms| terms.class == Class::Interest;
        let rates = [1, 2, 3, 4].map(|kind| most(|terms| interest(terms) && terms.kind == kind));
        assert_eq!(rates, [125_000, 141_000, 205_000, 23_000]);
    }

    #[test]
    fn days_are_the_ends_of_all_bands_and_0() {
        let ends = [
            36_000, 7_200, 5_400, 4_320, 3_816, 3_600, 3_348, 2_628, 2_520, 2_052, 1_800, 1_548,
            1_440, 1_296, 1_080, 1_008, 720, 684, 360, 180, 90, 30, 0,
        ];
        assert_eq!(days_to_try(), ends);
    }

    /// Of the rows of the dearest band the one with the most days and the lowest coupon, long.
    #[test]
    fn the_first_of_equally_dear_rows_is_taken() {
        let row = Terms {
            class: Class::Interest,
            kind: kinds::OTHER,
            days: 36_000,
            coupon: 0,
            long: true,
        };
        assert_eq!(*DEAREST, row);
        let equal = |terms: &Terms| terms.rate() == row.rate();
        let short = Terms { long: false, ..row };
        let equals: Vec<Terms> = terms().into_iter().filter(equal).collect();
        assert_eq!(equals, [row, short]);
        // Rows that are not tried, since they cost what these do.
        for (days, coupon) in [(7_201, 0), (36_000, 299)] {
            let other = Terms {
                days,
                coupon,
                ..row
            };
            assert_eq!(other.rate(), row.rate());
        }
    }
}
