//! Where the charge of a currency turns as an amount is added to a band: between two such amounts it goes
//! one way, by as much for each unit.

use books::tables::Table;
use books::{Book, Row};

/// The largest amount that is tried, in thousands.
pub const MOST: u64 = 1_000_000;

/// The bands of the ladder.
pub const BANDS: usize = 15;

/// The band of a row: a floating-rate note goes by its fixing, in the column of coupon 300.
pub fn band_of(row: &Row) -> usize {
    let coupon = if row.kind == 4 { 300 } else { row.coupon };
    second::interest_band(row.days.into(), coupon.into())
}

/// The weighted nets of the bands of a currency.
fn nets(book: &Book, table: &Table, group: usize) -> [i128; BANDS] {
    let mut nets = [0; BANDS];
    let own = book.classes[0].iter();
    for row in own.filter(|row| usize::from(row.group) == group) {
        let (band, net) = (band_of(row), i128::from(row.long) - i128::from(row.short));
        nets[band] += net * i128::from(table.weights[band]);
    }
    nets
}

/// The sums whose sign matters where a band changes: its own, its zone's, and this zone's with each of the
/// others and with both.
fn sums(nets: &[i128; BANDS], band: usize) -> [i128; 5] {
    let zone_sum = |zone: usize| -> i128 {
        let inside = (0..BANDS).filter(|band| second::zone_of_band(*band) == zone);
        inside.map(|band| nets[band]).sum()
    };
    let zone = second::zone_of_band(band);
    let own = zone_sum(zone);
    let [one, other] = [1, 2].map(|step| zone_sum((zone - 1 + step) % 3 + 1));
    [nets[band], own, own + one, own + other, own + one + other]
}

/// The amounts beside those that bring a sum to zero, with the least and the largest of all, in order.
pub fn beside(sums: &[i128], weight: u64) -> Vec<u64> {
    let turns = sums.iter().filter_map(|sum| {
        let turn = sum.unsigned_abs().checked_div(weight.into())?;
        u64::try_from(turn).ok()
    });
    let beside = turns.flat_map(|turn| [turn, turn + 1]);
    let mut all: Vec<u64> = beside.chain([0, MOST]).collect();
    all.retain(|amount| *amount <= MOST);
    all.sort_unstable();
    all.dedup();
    all
}

/// The amounts beside which the charge of a currency turns, where they are added to a band.
pub fn turns(book: &[u8], table: &[u8], group: usize, band: usize) -> Vec<u64> {
    match (Book::decode(book), Table::decode(table)) {
        (Some(book), Some(table)) => {
            let nets = nets(&book, &table, group);
            beside(&sums(&nets, band), table.weights[band].into())
        }
        _ => vec![0, MOST],
    }
}

#[cfg(test)]
mod tests {
    use super::*;

    /// Catches a zone that is left out of a sum, or in the place of another.
    #[test]
    fn a_band_turns_with_its_zone_and_the_others() {
        let mut nets = [0; BANDS];
        (nets[1], nets[2], nets[5], nets[9]) = (1, 20, 300, 4_000);
        assert_eq!(sums(&nets, 1), [1, 21, 321, 4_021, 4_321]);
        assert_eq!(sums(&nets, 5), [300, 300, 4_300, 321, 4_321]);
        assert_eq!(sums(&nets, 8), [0, 4_000, 4_021, 4_300, 4_321]);
    }

    /// Catches amounts past the largest, and a weight of nothing.
    #[test]
    fn turns_lie_beside_a_sum_of_zero() {
        assert_eq!(beside(&[7, -20], 2), [0, 3, 4, 10, 11, MOST]);
        assert_eq!(beside(&[7], 0), [0, MOST]);
        assert_eq!(beside(&[MOST as i128 * 5], 5), [0, MOST]);
    }
}
