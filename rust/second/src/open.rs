//! Equity and foreign exchange: charges on net open positions (A.2, 2, 3 and 7; A.3, 11
//! and 12).

use crate::book::{Class, Row};
use crate::kinds::{DIVERSIFIED, INDEX, ORDINARY};
use crate::GROUPS;

/// 8% of one amount unit, in mils (A.2, 3; A.3, 12).
const EIGHT_PER_CENT: i128 = 80_000;

/// The signed net of each of the 32 groups of a class.
fn nets(rows: &[Row], class: Class) -> Vec<i128> {
    let net = |group: usize| {
        rows.iter()
            .filter(|row| row.class == class && row.group == group)
            .map(Row::net)
            .sum()
    };
    (0..GROUPS).map(net).collect()
}

/// The specific weight of an equity row, in basis points.
fn specific_weight(row: &Row) -> i128 {
    match row.kind {
        // A.2, 2 and 3.
        ORDINARY => 800,
        // A.2, 3: liquid and well diversified.
        DIVERSIFIED => 400,
        // A.2, 7.
        INDEX => 200,
        kind => unreachable!("no equity row has kind {kind}"),
    }
}

/// The specific charge of equity rows, in mils (A.2, 2, 3 and 7).
pub fn equity_specific(rows: &[Row]) -> i128 {
    rows.iter()
        .filter(|row| row.class == Class::Equity)
        .map(|row| row.amount() * specific_weight(row) * 100)
        .sum()
}

/// The general charge of equities: each market's net without its sign, in mils (A.2, 2
/// and 3). An index counts like any other row (A.2, 7).
pub fn equity_general(rows: &[Row]) -> i128 {
    let open: i128 = nets(rows, Class::Equity).iter().map(|net| net.abs()).sum();
    open * EIGHT_PER_CENT
}

/// Foreign exchange by the shorthand method, in mils (A.3, 11 and 12). Group 0 is gold,
/// which is added without its sign (A.3, 1, footnote 24; A.3, 12).
pub fn exchange(rows: &[Row]) -> i128 {
    let nets = nets(rows, Class::Exchange);
    let (gold, currencies) = (nets[0], &nets[1..]);
    let longs: i128 = currencies.iter().map(|net| 0.max(*net)).sum();
    let shorts: i128 = currencies.iter().map(|net| 0.max(-*net)).sum();
    (longs.max(shorts) + gold.abs()) * EIGHT_PER_CENT
}

#[cfg(test)]
mod tests {
    use super::*;

    /// An equity row of a kind.
    fn of_kind(kind: u8) -> Row {
        Row {
            class: Class::Equity,
            group: 1,
            kind,
            days: 0,
            coupon: 0,
            issue: 0,
            long: 1,
            short: 0,
        }
    }

    /// Catches a new kind that is charged like one of the three, in silence.
    #[test]
    fn no_other_kind_has_a_specific_weight() {
        assert_eq!(
            [1, 2, 3].map(|kind| specific_weight(&of_kind(kind))),
            [800, 400, 200]
        );
        for kind in (0..=255).filter(|kind| !(1..=3).contains(kind)) {
            let weight = std::panic::catch_unwind(|| specific_weight(&of_kind(kind)));
            assert!(weight.is_err(), "kind {kind}");
        }
    }
}
