//! Random books of swap legs that offset each other, or nearly do.

use crate::generate::{row, Shape};
use crate::names::FLOATING;
use crate::{Book, Random, Row};

/// The kind of swap legs, in interest.
pub const LEG: u8 = 1;

/// Days from which a leg a few days later lies at a limit, on either side of it.
const DAYS: [u16; 14] = [
    0, 22, 28, 29, 30, 31, 352, 353, 354, 359, 360, 361, 720, 35_969,
];

/// How many days later: equal, at most 7 and at most 30 apart, and one past each.
const LATER: [u16; 9] = [0, 0, 1, 6, 7, 8, 29, 30, 31];

/// Coupons, and how much higher: at most 15 apart and one past it.
const COUPONS: [u16; 4] = [0, 292, 800, 9_984];
const HIGHER: [u16; 7] = [0, 0, 1, 14, 15, 16, 31];

/// What the legs of a book are drawn from: few of everything, so that they meet.
pub struct Legs {
    currencies: [u8; 2],
    amounts: [u32; 2],
    days: [u16; 2],
    coupon: u16,
}

impl Legs {
    /// One currency or two, one amount or two, and legs around one day or two and a coupon.
    pub fn new(random: &mut Random) -> Legs {
        let currency = random.below(32) as u8;
        let amount = random.pick(&[1, 2, 100, 65_536, 999_999_999]);
        let days = random.pick(&DAYS);
        let one = |random: &mut Random| !random.once_in(3);
        Legs {
            currencies: [currency, if one(random) { currency } else { 31 - currency }],
            amounts: [amount, if one(random) { amount } else { amount + 1 }],
            days: [
                days,
                if one(random) {
                    days
                } else {
                    random.pick(&DAYS)
                },
            ],
            coupon: random.pick(&COUPONS),
        }
    }

    /// A leg.
    pub fn leg(&self, random: &mut Random) -> Row {
        let days = random.pick(&self.days) + random.pick(&LATER);
        let coupon = self.coupon + random.pick(&HIGHER);
        let amount = random.pick(&self.amounts);
        let (long, short) = random.pick(&[(amount, 0), (0, amount)]);
        Row {
            group: random.pick(&self.currencies),
            kind: LEG,
            days,
            coupon: coupon.min(10_000),
            issue: random.pick(&[0, 0, 5, 6, 65_535]),
            long,
            short,
        }
    }

    /// An interest row of another kind that is else like a leg. Fixed within a year, a leg's days
    /// are those of a note whose final maturity is its coupon or later.
    fn other_kind(&self, random: &mut Random) -> Row {
        let leg = self.leg(random);
        let note = leg
            .with_kind(FLOATING)
            .with_coupon(leg.coupon.max(leg.days));
        match leg.days {
            ..=360 => random.pick(&[leg.with_kind(2), leg.with_kind(3), note]),
            _ => random.pick(&[leg.with_kind(2), leg.with_kind(3)]),
        }
    }

    /// A row of another class: of the legs' kind and amounts where it has such.
    fn other_class(&self, random: &mut Random, class: usize) -> Row {
        let shape = Shape::of_one_group(random, 0);
        let (row, leg) = (row(random, class, &shape), self.leg(random));
        let row = row.with_group(leg.group).with_sides(leg.long, leg.short);
        match class {
            1 => row.with_kind(LEG),
            _ => row,
        }
    }

    /// An accepted book of so many rows: most are legs, one in eight of another kind, and one in
    /// eight of another class.
    pub fn book(&self, random: &mut Random, rows: usize) -> Book {
        let mut book = Book::default();
        for _ in 0..rows {
            match random.below(8) {
                0 => {
                    let class = random.pick(&[1, 2, 3]);
                    let row = self.other_class(random, class);
                    book.classes[class].push(row);
                }
                1 => book.classes[0].push(self.other_kind(random)),
                _ => book.classes[0].push(self.leg(random)),
            }
        }
        book
    }
}

#[cfg(test)]
mod tests {
    use super::*;
    use std::collections::HashSet;

    /// Rows of all books of a seed.
    fn rows() -> Vec<(usize, Row)> {
        let books = (0..400).map(|case| {
            let mut random = Random::of_case(31, case);
            Legs::new(&mut random).book(&mut random, 12)
        });
        let numbered = |book: Book| (0..12).map(move |at| book.row(at).unwrap());
        books.flat_map(numbered).collect()
    }

    /// Catches rows past the ends of their fields, and kinds or classes that are never drawn.
    #[test]
    fn rows_are_accepted_and_of_all_sorts() {
        let rows = rows();
        for (class, row) in &rows {
            assert!(row.group < 32 && (row.long == 0) != (row.short == 0));
            assert!(row.long.max(row.short) <= 1_000_000_000);
            match (class, row.kind) {
                (0, FLOATING) => {
                    assert!(row.days <= 360 && (row.days..=36_000).contains(&row.coupon));
                }
                (0, 1..=3) => assert!(row.days <= 36_000 && row.coupon <= 10_000),
                (1, kind) => assert_eq!(kind, LEG),
                (_, kind) => assert_eq!((kind, row.coupon), (0, 0)),
            }
        }
        let sorts: HashSet<(usize, u8)> =
            rows.iter().map(|(class, row)| (*class, row.kind)).collect();
        assert_eq!(sorts.len(), 4 + 3, "{sorts:?}");
        let legs = rows
            .iter()
            .filter(|(class, row)| (*class, row.kind) == (0, LEG));
        assert!((3_200..4_000).contains(&legs.count()));
    }

    /// Catches books in which no two legs of opposite sides lie at a limit or one past it.
    #[test]
    fn legs_meet_at_every_limit() {
        let mut seen = HashSet::new();
        for case in 0..600 {
            let mut random = Random::of_case(32, case);
            let book = Legs::new(&mut random).book(&mut random, 12);
            let rows = &book.classes[0];
            for (at, one) in rows.iter().enumerate() {
                for other in &rows[at + 1..] {
                    let (near, far) = (one.days.min(other.days), one.days.max(other.days));
                    if one.long == other.short && one.short == other.long {
                        seen.insert((near, far - near, one.coupon.abs_diff(other.coupon)));
                    }
                }
            }
        }
        let met = |near: u16, apart: u16| seen.iter().any(|met| (met.0, met.1) == (near, apart));
        for (near, apart) in [(29, 0), (29, 1), (30, 7), (30, 8), (360, 7), (360, 8)] {
            assert!(met(near, apart), "{near} {apart}");
        }
        assert!(met(361, 30) && met(361, 31) && met(0, 0) && met(0, 1));
        for coupons in [0, 15, 16] {
            assert!(seen.iter().any(|met| met.2 == coupons), "{coupons}");
        }
    }
}
