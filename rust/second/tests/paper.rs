//! Sections C.2, C.3 and Table 6 of source document 001, step by step.

mod common;
use common::*;
use second::commodity_ladder;

/// C.2 gives millions of dollars; here a unit is a thousand.
const MILLION: i64 = 1_000;

/// A weighted position of a million dollars: a thousand units at 10,000 basis points.
const WEIGHTED_MILLION: u64 = 10_000_000;

/// The positions of C.2, paragraph 1: the swap and the future have two legs each.
fn c2(qualifying: i64) -> Vec<u8> {
    interest(&[
        row(7, 2, 2880, 800, qualifying),
        row(7, 1, 60, 700, 75 * MILLION),
        bond(270, 150 * MILLION),
        bond(2880, -150 * MILLION),
        bond(180, -50 * MILLION),
        bond(1260, 50 * MILLION),
    ])
}

#[test]
fn c2_matches_of_table_10() {
    let ladder = interest_ladder(&c2(13_330), 7);
    assert_eq!(ladder.vertical, 13_330 * 375);
    assert_eq!(ladder.zone_1, WEIGHTED_MILLION / 5);
    assert_eq!((ladder.zone_2, ladder.zone_3), (0, 0));
    assert_eq!(ladder.zones_1_2, 0);
    assert_eq!(ladder.zones_2_3, WEIGHTED_MILLION * 1125 / 1000);
    assert_eq!(ladder.zones_1_3, WEIGHTED_MILLION);
    assert_eq!(ladder.residual, 30_000_000 + (5_000_000 - 13_330 * 375));
}

#[test]
fn c2_charge_lies_within_the_paper_s_rounding() {
    // 4,580,000 dollars, each dollar a thousand mils, off by the rounding of 0.499875 to 0.5.
    let charge = interest_ladder(&c2(13_330), 7).charge;
    assert_eq!(charge.abs_diff(4_580_000_000), 112_500);
    // With the amount whose weighted position is nearest to 0.5 it comes nearer still.
    let nearer = interest_ladder(&c2(13_333), 7).charge;
    assert_eq!(nearer.abs_diff(4_580_000_000), 90 * 125);
}

#[test]
fn c2_specific_risk_is_the_qualifying_bond_s() {
    assert_eq!(charge(&c2(13_330)).interest_specific, 13_330 * 160 * 100);
}

#[test]
fn c3_line_by_line() {
    // Each prefix of Table 11 ends with what is carried, at 15%.
    let lines: [(u16, i64); 4] = [(150, 800), (150, -1000), (600, 600), (1100, -600)];
    let ladder = commodity_ladder(&commodity(&lines), 5);
    let mils = |tenths: u64| tenths * 100_000;
    let parts = [240, 24, 60, 48, 120, 300].map(mils);
    assert_eq!(ladder.charge, parts.iter().sum::<u64>());
    assert_eq!(ladder.charge, mils(792));
    let near = commodity_ladder(&commodity(&lines[..2]), 5);
    assert_eq!((near.matches, near.carried, near.residual), (800, 800, 200));
}

#[test]
fn table_6() {
    let nets = [(1, 50), (2, 100), (3, 150), (4, -20), (5, -180), (0, -35)];
    let tenths = charge(&exchange(&nets)).exchange / 100_000;
    assert_eq!(tenths, 268);
    // Turned round, the shorts are the greater side.
    let turned: Vec<(u8, i64)> = nets.iter().map(|(group, net)| (*group, -net)).collect();
    assert_eq!(charge(&exchange(&turned)).exchange, 26_800_000);
}
