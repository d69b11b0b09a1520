//! A currency's ladder from amounts that are no book's: all its figures are made here.

use super::adding_up::interest_of;
use super::interest::Interest;
use super::steps::{charge, steps, weigh, Sides};
use market_risk::{InterestLadder, Table};

/// The figures of a ladder, from the amounts of its bands. None is below zero.
fn figures(amounts: &[Sides; 15], table: &Table) -> InterestLadder {
    let bands = weigh(amounts, table);
    let (steps, rest) = steps(&bands, &table.per_cents());
    let matched = |step: usize| steps[step].matched as u64;
    let gross: i128 = bands.iter().map(|(long, short)| long + short).sum();
    let mut ladder = InterestLadder::default();
    ladder.gross = gross as u64;
    ladder.vertical = matched(0);
    ladder.zones = [1, 2, 3].map(matched);
    ladder.zones_1_2 = matched(4);
    ladder.zones_2_3 = matched(5);
    ladder.zones_1_3 = matched(6);
    ladder.residual = rest.unsigned_abs() as u64;
    ladder.charge = charge(&steps, rest) as u64;
    ladder
}

/// The ladder of amounts, or what of it does not add up.
pub fn made(amounts: &[Sides; 15], group: u64, table: &Table) -> Result<Interest, String> {
    let figures = figures(amounts, table);
    let sums = weigh(amounts, table)
        .iter()
        .fold((0, 0), |sums, sides| (sums.0 + sides.0, sums.1 + sides.1));
    let lines = interest_of(sums, &figures);
    Interest::of(*amounts, group, table, &figures, lines)
}

#[cfg(test)]
mod tests {
    use super::super::interest::text;
    use super::super::steps::amounts;
    use super::*;
    use books::{Book, Row};

    /// Bonds of currency 7 that match within bands 1 and 5, within each zone and between all zones.
    fn rows() -> Vec<Row> {
        let row = Row::default().with_group(7).with_kind(1).with_coupon(800);
        let bond = |days, long, short| row.with_days(days).with_sides(long, short);
        vec![
            bond(60, 10, 0),
            bond(60, 0, 4),
            bond(150, 0, 1),
            bond(270, 100, 0),
            bond(600, 2, 0),
            bond(900, 0, 6),
            bond(900, 1, 0),
            bond(1500, 3, 0),
            bond(2880, 0, 5),
        ]
    }

    /// Catches a figure in the place of another: a ladder that is made is the library's of the same rows.
    #[test]
    fn a_made_ladder_is_the_library_s() {
        let mut book = Book::default();
        book.classes[0] = rows();
        let mut flat = *Table::amendment().bytes();
        flat[..30].copy_from_slice(&[100, 0].repeat(15));
        for table in [Table::amendment(), Table::new(&flat).unwrap()] {
            let bytes = book.encode().unwrap();
            let library = market_risk::interest_ladder(&bytes, &table, 7).unwrap();
            let bands = amounts(&rows(), 7);
            assert_eq!(figures(&bands, &table), library);
            let drawn = Interest::new(&rows(), 7, &table, &library).unwrap();
            let made = made(&bands, 7, &table).unwrap();
            assert_eq!(text(&made, false), text(&drawn, false));
        }
    }
}
