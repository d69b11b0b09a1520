//! Charges under tables that are not document 01's, worked by hand.

mod common;
use common::*;
use second::{join, InterestLadder, GROUPS};

/// A weight of its own for each band.
const WEIGHTS: [u16; 15] = [1, 3, 7, 11, 13, 17, 19, 23, 29, 31, 37, 41, 43, 47, 2_000];

/// A per cent of its own for each sort of match: 3% within bands; 5%, 11% and 7% within zones;
/// 13% between adjacent ones; 17% between zones 1 and 3.
fn own() -> Vec<u8> {
    table(WEIGHTS, [3, 5, 11, 7, 13, 17])
}

/// Longs and shorts in all zones. Band 1, at 3: long 100 and short 40 are 300 and 120, matched
/// 120, left 180. Band 3, at 11: short 10 is 110. Zone 1: matched 110, left 70. Band 4, at 13:
/// long 10 is 130. Band 5, at 17: short 20 is 340. Zone 2: matched 130, left -210. Band 8, at
/// 29: long 5 is 145. Band 11, at 41: short 1. Zone 3: matched 41, left 104.
fn all_zones() -> Vec<u8> {
    let rows = [
        (60, 100),
        (90, -40),
        (270, -10),
        (400, 10),
        (900, -20),
        (2_000, 5),
        (6_000, -1),
    ];
    interest(&rows.map(|(days, net)| bond(days, net)))
}

/// Zones 1 and 2 match 70, and leave -140 of zone 2; zones 2 and 3 match 104, and leave -36.
/// 3 x 120 + 5 x 110 + 11 x 130 + 7 x 41 + 13 x (70 + 104) + 100 x 36 = 360 + 550 + 1,430 + 287
/// + 2,262 + 3,600.
#[test]
fn matches_within_zones_and_between_adjacent_ones() {
    let expected = InterestLadder {
        gross: 420 + 110 + 130 + 340 + 145 + 41,
        vertical: 120,
        zone_1: 110,
        zone_2: 130,
        zone_3: 41,
        zones_1_2: 70,
        zones_2_3: 104,
        residual: 36,
        charge: 8_489,
        ..InterestLadder::default()
    };
    let ladder = second::interest_ladder(&all_zones(), &own(), 7);
    assert_eq!(ladder, expected);
}

/// Band 0, at 1: long 50. Band 6, at 19: long 2 is 38. Band 13, at 47: short 1. Zones 2 and 3
/// match 38, and leave -9; zones 1 and 3 match 9, and leave 41. 13 x 38 + 17 x 9 + 100 x 41.
#[test]
fn a_match_between_zones_1_and_3() {
    let rows = [bond(30, 50), bond(1_260, 2), row(7, 1, 7_200, 299, -1)];
    let expected = InterestLadder {
        gross: 135,
        zones_2_3: 38,
        zones_1_3: 9,
        residual: 41,
        charge: 494 + 153 + 4_100,
        ..InterestLadder::default()
    };
    let ladder = second::interest_ladder(&interest(&rows), &own(), 7);
    assert_eq!(ladder, expected);
}

/// The same rows under document 01's table: other weights and other per cents, each by itself
/// another charge.
#[test]
fn weights_and_per_cents_both_come_from_the_table() {
    let amendment = second::read_table(&second::table()).unwrap();
    let old_weights = amendment.weights.map(|weight| weight as u16);
    let charge = |table: &[u8]| second::interest_ladder(&all_zones(), table, 7).charge;
    let charges = [
        charge(&own()),
        charge(&table(WEIGHTS, [10, 40, 30, 30, 40, 100])),
        charge(&table(old_weights, [3, 5, 11, 7, 13, 17])),
        charge(&second::table()),
    ];
    // 10 x 120 + 40 x 110 + 30 x (130 + 41) + 40 x 174 + 100 x 36.
    assert_eq!(charges[1], 1_200 + 4_400 + 5_130 + 6_960 + 3_600);
    // Weighted 2,000 against 800; short 700; long 1,250; short 3,500; long 1,625; short 525:
    // matched 800; 700, 1,250, 525; left 500, -2,250, 1,100; matched 500 and 1,100; left 650.
    let by_hand = 3 * 800 + 5 * 700 + 11 * 1_250 + 7 * 525 + 13 * 1_600 + 100 * 650;
    assert_eq!(charges[2], by_hand);
    let by_hand = 10 * 800 + 40 * 700 + 30 * (1_250 + 525) + 40 * 1_600 + 100 * 650;
    assert_eq!(charges[3], by_hand);
}

/// Catches a band that takes another's weight, in either column and for a note.
#[test]
fn every_band_takes_its_own_weight() {
    let last_days = [
        30, 90, 180, 360, 684, 1008, 1296, 1548, 2052, 2628, 3348, 3816, 4320, 7200, 36_000,
    ];
    for (days, weight) in last_days.iter().zip(WEIGHTS) {
        let ladder = |row: Bytes| second::interest_ladder(&interest(&[row]), &own(), 7);
        let expected = 3 * u64::from(weight);
        assert_eq!(ladder(row(7, 1, *days, 299, -3)).gross, expected);
        assert_eq!(ladder(row(7, 1, *days, 299, -3)).charge, 100 * expected);
        if *days <= 360 {
            assert_eq!(ladder(row(7, 4, *days, 36_000, 3)).residual, expected);
        }
    }
}

/// The report has the ladder's charge, in its currency, in the sum and in the total. Specific
/// charges and the other classes do not look at the table.
#[test]
fn the_report_takes_the_table_for_general_interest_alone() {
    let seven = all_zones();
    let mut rows: Vec<Bytes> = seven[8..]
        .chunks(16)
        .map(|row| row.try_into().unwrap())
        .collect();
    rows.push(row(31, 3, 36_000, 0, -1));
    let book = book([&rows, &[clean(1)], &[clean(2)], &[clean(3)]]);
    let (own, old) = (second::charge(&book, &own()), charge(&book));
    let mut generals = [0; GROUPS];
    (generals[7], generals[31]) = (8_489, 200_000);
    assert_eq!(own.generals, generals);
    assert_eq!(own.interest_general, 208_489);
    assert_eq!(
        own.total - own.interest_general,
        old.total - old.interest_general
    );
    assert_eq!(own.specifics, old.specifics);
    assert_eq!(own.entries()[5..9], old.entries()[5..9]);
    assert_eq!(own.taken, 11);
}

/// All weights 0, and all per cents 0 and 100: 20 weighted against 12.
#[test]
fn tables_at_the_ends() {
    let rows = [bond(60, 10), bond(61, -6)];
    let ladder = |weight: u16, per_cent: u8| {
        let table = table([weight; 15], [per_cent; 6]);
        second::interest_ladder(&interest(&rows), &table, 7)
    };
    assert_eq!(ladder(0, 100), InterestLadder::default());
    let free = ladder(2, 0);
    assert_eq!((free.gross, free.vertical, free.residual), (32, 12, 8));
    assert_eq!(free.charge, 800);
    assert_eq!(ladder(2, 100).charge, 1_200 + 800);
}

/// 2,000 basis points, or a fifth, of 4,000,000,000,000; half of it where all is matched at 100%.
#[test]
fn the_dearest_book_fits() {
    let dearest = table([2_000; 15], [100; 6]);
    let most = |net: i64| row(31, 3, 36_000, 0, net * 1_000_000_000);
    let report = second::charge(&interest(&vec![most(1); 4_000]), &dearest);
    assert_eq!(report.interest_general, 800_000_000_000_000_000);
    assert_eq!(report.interest_specific, 320_000_000_000_000_000);
    assert_eq!(report.total, 1_120_000_000_000_000_000);
    let both = [vec![most(1); 2_000], vec![most(-1); 2_000]].concat();
    let report = second::charge(&interest(&both), &dearest);
    assert_eq!(report.interest_general, 400_000_000_000_000_000);
}

/// E4 with every per cent 0: the two cost nothing. Joined, what is left of zone 2 is nothing, and
/// zones 1 and 3 are matched at 0 too.
#[test]
fn joined_under_one_table() {
    let a = interest(&[bond(270, 75), bond(900, -30)]);
    let b = interest(&[bond(900, 30), bond(6000, -10)]);
    let mut joined = vec![0; a.len() + b.len() - 8];
    assert!(join(&a, &b, &mut joined).refusal.accepted());
    let old_weights = second::read_table(&second::table()).unwrap().weights;
    let costs = |per_cents: [u8; 6]| {
        let table = table(old_weights.map(|weight| weight as u16), per_cents);
        [&a, &b, &joined].map(|book| second::charge(book, &table).total)
    };
    assert_eq!(costs([0; 6]), [0; 3]);
    // 5,250 matched at 40% twice; joined, at 10% within band 5 and at 100% between 1 and 3.
    assert_eq!(
        costs([10, 40, 30, 30, 40, 100]),
        [210_000, 210_000, 577_500]
    );
    // At 0% within band 5 and at 80% between 1 and 3 the joined book costs as much as the two.
    assert_eq!(costs([0, 40, 30, 30, 40, 80]), [210_000, 210_000, 420_000]);
}
