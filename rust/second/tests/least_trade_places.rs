//! The least trade (document 02, P13) in every band, under tables at their ends, and of one currency of a
//! book alone; worked by hand.

mod common;
use common::least_trade::*;
use common::*;
use second::least_trade;

/// Document 01's per cents.
const PER_CENTS: [u8; 6] = [10, 40, 30, 30, 40, 100];

/// A row in a band, of coupon 299, with an amount.
fn in_band(band: usize, net: i64) -> Bytes {
    let last_days = [
        30, 90, 180, 360, 684, 1008, 1296, 1548, 2052, 2628, 3348, 3816, 4320, 7200, 36_000,
    ];
    row(7, 1, last_days[band], 299, net)
}

/// Long 1,000,000 in a band: 100 times its weight. A trade of 3 is less than that in any band: within
/// the band it takes 97 times its own weight off, in another band of the zone 95, 89 or 93 times, in the
/// next zone 87 times, and between zones 1 and 3 83 times.
#[test]
fn every_band_has_its_own_weight_and_zone() {
    let weights = [1, 3, 7, 11, 13, 17, 19, 23, 29, 31, 37, 41, 43, 47, 2_000];
    let table = table(weights, [3, 5, 11, 7, 13, 17]);
    let zone = |band: usize| [1, 1, 1, 1, 2, 2, 2, 3, 3, 3, 3, 3, 3, 3, 3][band];
    let off = |from: usize, to: usize| match (zone(from), zone(to)) {
        _ if from == to => 97,
        (1, 1) => 95,
        (2, 2) => 89,
        (3, 3) => 93,
        (1, 3) | (3, 1) => 83,
        _ => 87,
    };
    for (from, to) in (0..15).flat_map(|from| (0..15).map(move |to| (from, to))) {
        let charge = 100_000_000 * u64::from(weights[from]);
        let limit = charge - 3 * off(from, to) * u64::from(weights[to]);
        let expected = [(charge, Some(0)), (limit, Some(3)), (limit - 1, Some(4))];
        either_way(&table, &[in_band(from, 1_000_000)], to, SHORT, &expected);
    }
}

/// In band 0 amounts weigh nothing. Where all weights are 0 nothing is charged.
#[test]
fn weights_of_0() {
    let (amendment, rows) = (second::table(), [bond(270, 100)]);
    let expected = [(u64::MAX, Some(0)), (700_000, Some(0)), (699_999, None)];
    either_way(&amendment, &rows, 0, SHORT, &expected);
    either_way(&amendment, &rows, 0, LONG, &expected);
    either_way(&amendment, &[bond(30, 100)], 0, SHORT, &[(0, Some(0))]);
    let nothing = table([0; 15], PER_CENTS);
    for band in 0..15 {
        either_way(&nothing, &rows, band, SHORT, &[(0, Some(0)), (1, Some(0))]);
    }
    // Nothing up to band 9, and the trade in band 10 at 1: 100 on for each.
    let late = table(std::array::from_fn(|band| u16::from(band > 9)), PER_CENTS);
    charges(
        &late,
        &rows,
        10,
        SHORT,
        &[(0, 0), (1, 100), (1_000_000, 100_000_000)],
    );
    either_way(&late, &rows, 10, SHORT, &[(0, Some(0))]);
}

/// A match at 100% costs what the two sides' difference saves: no trade takes anything off.
#[test]
fn per_cents_of_100() {
    let (full, rows) = (with_weights(0, &[], [100; 6]), [bond(270, 100)]);
    for band in 0..15 {
        let expected = [(700_000, Some(0)), (699_999, None)];
        either_way(&full, &rows, band, SHORT, &expected);
    }
    charges(&full, &rows, 3, SHORT, &[(100, 700_000), (101, 707_000)]);
    // Long and short 9 are matched at 100%: 630 weighted.
    either_way(
        &full,
        &[bond(270, 9), bond(270, -9)],
        3,
        LONG,
        &[(63_000, Some(0)), (62_999, None)],
    );
}

/// At 0% a match costs nothing: a limit of 0 is met where all is matched, and there alone.
#[test]
fn a_limit_of_0() {
    let free = with_weights(0, &[], [0, 40, 30, 30, 40, 100]);
    let expected = [(7_000, Some(99)), (6_999, Some(100)), (0, Some(100))];
    either_way(&free, &[bond(270, 100)], 3, SHORT, &expected);
    // 7,070 are never matched by so many times 40: with 177 there is 10 on the other side. 7,000 are by 40
    // times 175.
    let free = with_weights(0, &[], [0, 0, 0, 0, 0, 0]);
    either_way(
        &free,
        &[bond(270, 101)],
        2,
        SHORT,
        &[(0, None), (1_000, Some(177))],
    );
    either_way(
        &free,
        &[bond(270, 100)],
        5,
        SHORT,
        &[(0, Some(40)), (17_499, Some(40))],
    );
    answers(&second::table(), &[], 3, SHORT, &[(0, Some(0))]);
}

/// Catches rows of other currencies and classes among the amounts.
#[test]
fn one_currency_alone() {
    let rows = [
        bond(270, 100),
        row(6, 1, 270, 800, 50),
        row(8, 1, 270, 800, -30),
    ];
    let fx = [row(7, 0, 0, 0, 99)];
    let equity = [row(7, 1, 0, 0, 99)];
    let commodity = [row(7, 0, 270, 0, -99)];
    let book = book([&rows, &equity, &fx, &commodity]);
    let least = |group: usize, side: usize, limit: u64| {
        let trade = least_trade(&book, &second::table(), group, 3, side, limit);
        (trade.found, trade.amount)
    };
    assert_eq!(least(7, SHORT, 70_000), (true, 100));
    assert_eq!(least(7, SHORT, 69_999), (false, 0));
    assert_eq!(least(6, SHORT, 35_000), (true, 50));
    assert_eq!(least(8, LONG, 21_000), (true, 30));
    assert_eq!(least(9, LONG, 0), (true, 0));
}

/// The amount is no row: a book of 4,000 takes it, and the sum may pass what a row may have. 4,000 rows of
/// 1,000,000,000 at 2,000 cost 800,000,000,000,000,000, and 90 x 2,000 less for each that is matched.
#[test]
fn beside_the_most_rows() {
    let table = table([2_000; 15], PER_CENTS);
    let rows = vec![row(7, 1, 36_000, 0, 1_000_000_000); 4_000];
    let expected = [
        (799_999_820_000_180_000, Some(999_999)),
        (799_999_820_000_000_000, Some(1_000_000)),
        (799_999_819_999_999_999, None),
    ];
    either_way(&table, &rows, 14, SHORT, &expected);
    let expected = [(1_000_000, 800_000_200_000_000_000)];
    charges(&table, &rows, 14, LONG, &expected);
}
