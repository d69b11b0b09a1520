//! The books E1 to E10 of document 01, its equity book, and its wrong readings.

mod common;
use common::*;
use second::{check, commodity_ladder, interest_band, Refusal, Report};

#[test]
fn equity_book() {
    let report = charge(&equity(&[row(3, 1, 0, 0, 100), row(3, 3, 0, 0, -40)]));
    let expected = Report {
        equity_specific: 8_800_000,
        equity_general: 4_800_000,
        total: 13_600_000,
        taken: 2,
        ..Report::default()
    };
    assert_eq!(report, expected);
}

#[test]
fn e1_an_empty_book_costs_nothing() {
    assert_eq!(charge(&[0; 8]), Report::default());
}

#[test]
fn e2_the_paper_s_interest_example() {
    let book = interest(&[
        row(7, 2, 2880, 800, 13_330),
        bond(60, 75_000),
        bond(270, 150_000),
        bond(2880, -150_000),
        bond(180, -50_000),
        bond(1260, 50_000),
    ]);
    let report = charge(&book);
    assert_eq!(report.interest_general, 4_580_112_500);
    assert_eq!(report.interest_specific, 213_280_000);
    assert_eq!((report.total, report.taken), (4_793_392_500, 6));
}

#[test]
fn e3_zone_2_is_used_once() {
    let book = interest(&[bond(270, 75), bond(900, -30), bond(6000, 10)]);
    let ladder = interest_ladder(&book, 7);
    assert_eq!(ladder.zones_1_2, 5250);
    assert_eq!((ladder.zones_2_3, ladder.zones_1_3), (0, 0));
    assert_eq!((ladder.residual, ladder.charge), (5250, 735_000));
}

#[test]
fn e4_three_zones_may_cost_more_joined() {
    let a = interest(&[bond(270, 75), bond(900, -30)]);
    let b = interest(&[bond(900, 30), bond(6000, -10)]);
    assert_eq!(charge(&a).total, 210_000);
    assert_eq!(charge(&b).total, 210_000);
    let mut joined = vec![0; a.len() + b.len() - 8];
    assert!(second::join(&a, &b, &mut joined).refusal.accepted());
    assert_eq!(charge(&joined).total, 577_500);
}

#[test]
fn e5_the_paper_s_commodity_example() {
    let book = commodity(&[(150, 800), (150, -1000), (600, 600), (1100, -600)]);
    let ladder = commodity_ladder(&book, 5);
    assert_eq!(ladder.matches, 800 + 200 + 400);
    assert_eq!(ladder.carried, 2 * 200 + 2 * 400);
    assert_eq!((ladder.residual, ladder.charge), (200, 79_200_000));
    assert_eq!(charge(&book).commodity, 79_200_000);
}

#[test]
fn e6_the_paper_s_exchange_example() {
    let book = exchange(&[(1, 50), (2, 100), (3, 150), (4, -20), (5, -180), (0, -35)]);
    assert_eq!(charge(&book).exchange, 26_800_000);
}

#[test]
fn e7_the_coupon_column() {
    assert_eq!(interest_band(700, 300), 4);
    assert_eq!(interest_band(700, 299), 5);
}

#[test]
fn e8_last_days() {
    assert_eq!(interest_band(30, 300), 0);
    assert_eq!(interest_band(31, 300), 1);
    assert_eq!(interest_band(7200, 299), 13);
    assert_eq!(interest_band(7201, 299), 14);
}

#[test]
fn e9_the_largest_amount() {
    let limit = 1_000_000_000;
    assert_eq!(check(&interest(&[bond(0, limit)])), Refusal::NONE);
    assert_eq!(check(&interest(&[bond(0, -limit)])), Refusal::NONE);
    assert_eq!(check(&interest(&[bond(0, limit + 1)])).number, 9);
    assert_eq!(check(&interest(&[bond(0, -limit - 1)])).number, 9);
}

#[test]
fn e10_too_many_rows_before_a_wrong_length() {
    assert_eq!(check(&file([1000, 1000, 1000, 1001], &[])), Refusal::of(2));
    assert_eq!(check(&file([1000, 1000, 1000, 1000], &[])), Refusal::of(3));
}

#[test]
fn ten_per_cent_of_one_side_of_a_match() {
    let ladder = interest_ladder(&interest(&[bond(60, 10), bond(61, -10)]), 7);
    assert_eq!((ladder.vertical, ladder.charge), (200, 2_000));
}

#[test]
fn each_currency_has_its_own_ladder() {
    let book = interest(&[row(1, 1, 60, 800, 10), row(2, 1, 60, 800, -10)]);
    assert_eq!(charge(&book).interest_general, 2 * 200 * 100);
}

#[test]
fn a_commodity_match_bears_its_rate_on_both_sides() {
    let book = commodity(&[(0, 10), (0, -10)]);
    assert_eq!(charge(&book).commodity, 2 * 15_000 * 10);
}

#[test]
fn gold_is_added_without_its_sign() {
    assert_eq!(charge(&exchange(&[(1, 10), (0, -4)])).exchange, 14 * 80_000);
    assert_eq!(charge(&exchange(&[(1, 10), (0, 4)])).exchange, 14 * 80_000);
}

#[test]
fn no_step_is_rounded() {
    // 10% of a match of 20 weighted is 200 mils, a fifth of the currency unit.
    let ladder = interest_ladder(&interest(&[bond(60, 1), bond(60, -1)]), 7);
    assert_eq!(ladder.charge, 200);
}
