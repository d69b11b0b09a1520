//! The curve by hand, and its turns against every amount.

use super::*;

/// A government bond of currency 7, coupon 8%.
fn bond(days: u16, long: u32, short: u32) -> Row {
    let row = Row::default().with_group(7).with_kind(1).with_coupon(800);
    row.with_days(days).with_sides(long, short)
}

/// The curve of currency 7 as amounts are added to a side of a band.
fn curve<'a>(rows: &[Row], band: u64, side: Side, table: &'a Table) -> Curve<'a> {
    let (group, limit) = (7, 0);
    let asked = Asked {
        group,
        band,
        side,
        limit,
    };
    Curve::new(rows, &asked, table)
}

/// By hand: 17.5 for each unit that is left, 1.75 for each that is matched; the same rows of currency 8 are
/// nothing to currency 7.
#[test]
fn one_bond_by_hand() {
    let table = Table::amendment();
    let rows = [bond(900, 100, 0), bond(900, 100, 0).with_group(8)];
    let short = curve(&rows, 5, Side::Short, &table);
    for (added, charge) in [
        (0, 1_750_000),
        (47, 1_009_750),
        (48, 994_000),
        (100, 175_000),
        (101, 192_500),
    ] {
        assert_eq!(short.charge(added), charge, "{added}");
    }
    assert_eq!(short.lowest(), 100);
    assert_eq!(short.amounts(48)[5], (100, 48));
    let long = curve(&rows, 5, Side::Long, &table);
    assert_eq!(long.charge(1), 1_767_500);
    assert_eq!(long.amounts(1)[5], (101, 0));
    assert_eq!(long.lowest(), 0);
}

/// E3 of document 01 by hand: each unit short in band 5 sets 17.5 more of zone 3 off at 40%, up to 30 units;
/// then it is left over.
#[test]
fn three_zones_by_hand() {
    let table = Table::amendment();
    let rows = [bond(270, 75, 0), bond(900, 0, 30), bond(6_000, 10, 0)];
    let short = curve(&rows, 5, Side::Short, &table);
    for (added, charge) in [
        (0, 735_000),
        (1, 724_500),
        (29, 430_500),
        (30, 420_000),
        (31, 437_500),
    ] {
        assert_eq!(short.charge(added), charge, "{added}");
    }
    assert_eq!(short.lowest(), 30);
    // A band without weight costs nothing, whatever stands in it.
    let none = curve(&rows, 0, Side::Long, &table);
    assert_eq!((none.charge(0), none.charge(MOST)), (735_000, 735_000));
    assert_eq!((none.turns(), none.lowest()), (vec![], 0));
}

/// A generator of small numbers.
struct Numbers(u64);

impl Numbers {
    fn below(&mut self, limit: u64) -> u64 {
        self.0 = self.0.wrapping_mul(6_364_136_223_846_793_005);
        self.0 = self.0.wrapping_add(1_442_695_040_888_963_407);
        (self.0 >> 33) % limit
    }

    /// A table of small weights, so that places of turning are seldom whole.
    fn table(&mut self) -> Table {
        let mut bytes = [0; 36];
        let mut weight = 1;
        for band in 0..15 {
            weight += self.below(3) as u8;
            bytes[2 * band] = weight;
        }
        let mut per_cents = [0; 6].map(|_| self.below(101) as u8);
        per_cents.sort_unstable();
        bytes[30..].copy_from_slice(&per_cents);
        Table::new(&bytes).unwrap()
    }

    /// Bonds of few bands of every zone, with small amounts.
    fn rows(&mut self) -> Vec<Row> {
        let days = [60, 270, 600, 900, 1_500, 2_880, 6_000];
        let row = |numbers: &mut Numbers| {
            let days = days[numbers.below(7) as usize];
            let amount = 1 + numbers.below(40) as u32;
            match numbers.below(2) {
                0 => bond(days, amount, 0),
                _ => bond(days, 0, amount),
            }
        };
        (0..1 + self.below(6)).map(|_| row(self)).collect()
    }
}

/// A curve of small numbers.
fn any<'a>(numbers: &mut Numbers, table: &'a Table) -> Curve<'a> {
    let side = [Side::Long, Side::Short][numbers.below(2) as usize];
    curve(&numbers.rows(), numbers.below(15), side, table)
}

/// The charges with 0 to 400 added.
fn charges(curve: &Curve) -> Vec<i128> {
    (0..=400).map(|added| curve.charge(added)).collect()
}

/// Catches a net that is left out, or of which one side alone is looked at: where three amounts in a row do
/// not lie on a line, the one in the middle stands at a turn.
#[test]
fn the_charge_runs_straight_between_turns() {
    let (mut numbers, mut bends) = (Numbers(1), 0);
    for _ in 0..400 {
        let table = numbers.table();
        let curve = any(&mut numbers, &table);
        let (turns, charges) = (curve.turns(), charges(&curve));
        for (before, of) in charges.windows(3).enumerate() {
            if of[1] - of[0] != of[2] - of[1] {
                bends += 1;
                assert!(turns.contains(&(before as u64 + 1)), "{before}: {of:?}");
            }
        }
    }
    assert!(bends > 500, "{bends} bends");
}

/// Catches an end that is left out: up to any last amount the lowest charge stands at an end or at a turn.
#[test]
fn no_amount_is_lower_than_ends_and_turns() {
    let (mut numbers, mut between) = (Numbers(2), 0);
    for _ in 0..400 {
        let table = numbers.table();
        let curve = any(&mut numbers, &table);
        let (turns, charges) = (curve.turns(), charges(&curve));
        for last in [3, 17, 60, 400] {
            let ends = charges[0].min(charges[last]);
            let near = turns.iter().map(|turn| *turn as usize);
            let near = near.filter(|turn| *turn <= last).map(|turn| charges[turn]);
            let seen = near.fold(ends, i128::min);
            assert_eq!(charges[..=last].iter().min(), Some(&seen), "to {last}");
            between += u64::from(seen < ends);
        }
    }
    assert!(between > 100, "{between} lower between their ends");
}

/// Catches ends that are left out, amounts past the last, and too few between.
#[test]
fn ends_turns_and_steps_are_looked_at() {
    let table = Table::amendment();
    let short = curve(&[bond(900, 12_345, 0)], 5, Side::Short, &table);
    let seen = short.looked_at(MOST);
    for amount in [0, 1_000, 12_345, 12_346, 500_000, MOST] {
        assert!(seen.contains(&amount), "{amount}");
    }
    assert_eq!(short.looked_at(12_344).last(), Some(&12_344));
    assert!(short.looked_at(0).into_iter().eq([0]));
    assert!(short.looked_at(700).into_iter().eq(0..=700));
}
