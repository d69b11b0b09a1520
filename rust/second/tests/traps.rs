//! Places where a reading of document 01 easily goes wrong.

mod common;
use common::*;
use second::{commodity_band, commodity_ladder, interest_band};
use second::{join, Refusal};

/// The last day of each band but the last, coupon 300 or more.
const ORDINARY: [i128; 12] = [
    30, 90, 180, 360, 720, 1080, 1440, 1800, 2520, 3600, 5400, 7200,
];

/// The last day of each band but the last, coupon below 300.
const LOW: [i128; 14] = [
    30, 90, 180, 360, 684, 1008, 1296, 1548, 2052, 2628, 3348, 3816, 4320, 7200,
];

#[test]
fn a_last_day_belongs_to_its_band_in_both_columns() {
    for (column, coupons) in [(&ORDINARY[..], [300, 10_000]), (&LOW[..], [0, 299])] {
        for coupon in coupons {
            for (band, last) in column.iter().enumerate() {
                assert_eq!(interest_band(*last, coupon), band);
                assert_eq!(interest_band(last + 1, coupon), band + 1);
            }
            assert_eq!(interest_band(36_000, coupon), column.len());
        }
    }
}

#[test]
fn every_band_has_its_weight() {
    let weights = [
        0, 20, 40, 70, 125, 175, 225, 275, 325, 375, 450, 525, 600, 800, 1250,
    ];
    for (band, last) in LOW.iter().chain(&[36_000]).enumerate() {
        let book = interest(&[row(9, 1, *last as u16, 299, 3)]);
        assert_eq!(interest_ladder(&book, 9).gross, 3 * weights[band]);
    }
}

#[test]
fn groups_0_and_31_count_like_the_others() {
    for group in [0, 31] {
        let interest = interest(&[row(group, 1, 60, 800, 5)]);
        assert_eq!(charge(&interest).interest_general, 5 * 20 * 100);
        let stock = book([&[], &[], &[], &[row(group, 0, 2000, 0, -5)]]);
        assert_eq!(charge(&stock).commodity, 5 * 150_000);
        let market = equity(&[row(group, 1, 0, 0, -5)]);
        assert_eq!(charge(&market).equity_general, 5 * 80_000);
        assert_eq!(charge(&exchange(&[(group, 5)])).exchange, 5 * 80_000);
    }
}

#[test]
fn qualifying_weight_looks_at_days_only() {
    let weights = [(180, 25), (181, 100), (720, 100), (721, 160), (36_000, 160)];
    for (days, weight) in weights {
        for coupon in [0, 299, 300] {
            let report = charge(&interest(&[row(1, 2, days, coupon, -7)]));
            assert_eq!(report.interest_specific, 7 * weight * 100);
        }
    }
    assert_eq!(
        charge(&interest(&[row(1, 1, 9, 9, 7)])).interest_specific,
        0
    );
    let other = charge(&interest(&[row(1, 3, 9, 9, 7)]));
    assert_eq!(other.interest_specific, 7 * 800 * 100);
}

#[test]
fn equity_weights_by_kind_and_nets_by_market() {
    for (kind, weight) in [(1, 800), (2, 400), (3, 200)] {
        let report = charge(&equity(&[row(0, kind, 0, 0, 5), row(31, kind, 0, 0, -5)]));
        assert_eq!(report.equity_specific, 10 * weight * 100);
        assert_eq!(report.equity_general, 10 * 80_000);
    }
}

#[test]
fn group_0_is_gold_in_foreign_exchange_only() {
    let markets = equity(&[row(0, 1, 0, 0, 5), row(1, 1, 0, 0, -5)]);
    assert_eq!(charge(&markets).equity_general, 10 * 80_000);
    assert_eq!(charge(&exchange(&[(0, 5), (1, -5)])).exchange, 10 * 80_000);
    assert_eq!(charge(&exchange(&[(2, 5), (1, -5)])).exchange, 5 * 80_000);
}

#[test]
fn stock_is_carried_six_times() {
    let ladder = commodity_ladder(&commodity(&[(0, 10)]), 5);
    assert_eq!(
        (ladder.matches, ladder.carried, ladder.residual),
        (0, 60, 10)
    );
    assert_eq!(ladder.charge, 6 * 10 * 6_000 + 10 * 150_000);
    let last = commodity_ladder(&commodity(&[(1081, -10)]), 5);
    assert_eq!((last.carried, last.charge), (0, 10 * 150_000));
}

#[test]
fn commodity_last_days() {
    for (band, last) in [30, 90, 180, 360, 720, 1080].iter().enumerate() {
        assert_eq!(commodity_band(*last), band);
        assert_eq!(commodity_band(last + 1), band + 1);
    }
}

#[test]
fn the_largest_book_fits() {
    let dearest = row(31, 3, 36_000, 0, 1_000_000_000);
    let report = charge(&interest(&vec![dearest; 4000]));
    assert_eq!(report.interest_general, 4_000_000_000_000 * 1250 * 100);
    assert_eq!(report.interest_specific, 4_000_000_000_000 * 800 * 100);
    assert_eq!(report.total, 820_000_000_000_000_000);
}

#[test]
fn no_charge_depends_on_the_issue() {
    let mut numbered = bond(100, 5);
    numbered[6..8].copy_from_slice(&[255, 255]);
    assert_eq!(
        charge(&interest(&[numbered])),
        charge(&interest(&[bond(100, 5)]))
    );
}

#[test]
fn join_puts_each_body_of_a_before_b_s() {
    let rows = |net: i64| {
        [0, 1, 2, 3].map(|class| {
            let mut row = clean(class);
            row[6] = net as u8;
            row
        })
    };
    let (one, two) = (rows(1), rows(2));
    let parts = |rows: &[Bytes; 4]| book([&rows[..1], &rows[1..2], &rows[2..3], &rows[3..]]);
    let mut out = vec![0xA5; 8 + 16 * 8 + 3];
    let joined = join(&parts(&one), &parts(&two), &mut out);
    let bodies: Vec<Bytes> = (0..4).flat_map(|class| [one[class], two[class]]).collect();
    let mut expected = file([2; 4], &bodies);
    assert_eq!((joined.refusal, joined.length), (Refusal::NONE, 136));
    expected.extend([0xA5; 3]);
    assert_eq!(out, expected);
}

#[test]
fn join_wants_exactly_the_room_it_needs() {
    let one = interest(&[clean(0)]);
    for (room, number) in [(39, 12), (40, 0), (41, 0)] {
        let mut out = vec![9; room];
        assert_eq!(join(&one, &one, &mut out).refusal.number, number);
        assert_eq!(out[0] == 9, number == 12);
    }
}
