//! Banks with foreign exchange and commodities alone: figures by hand, and wrong readings.

mod common;
use common::*;
use second::{commodity_ladder, small_bank, Refusal, SmallBank};

/// Positions of commodity 5 as in C.3, Table 11.
const C3: [(u16, i64); 4] = [(150, 800), (150, -1000), (600, 600), (1100, -600)];

/// A book of foreign exchange rows, from groups and nets, and of commodity rows, from groups,
/// days and nets.
fn small(exchange: &[(u8, i64)], commodity: &[(u8, u16, i64)]) -> Vec<u8> {
    let exchange: Vec<Bytes> = exchange
        .iter()
        .map(|(group, net)| row(*group, 0, 0, 0, *net))
        .collect();
    let commodity: Vec<Bytes> = commodity
        .iter()
        .map(|(group, days, net)| row(*group, 0, *days, 0, *net))
        .collect();
    book([&[], &[], &exchange, &commodity])
}

/// Charges of an accepted book.
fn costs(exchange: u64, commodity: u64) -> SmallBank {
    SmallBank {
        refusal: Refusal::NONE,
        exchange,
        commodity,
        total: exchange + commodity,
    }
}

#[test]
fn an_empty_book_costs_nothing() {
    assert_eq!(small_bank(&[0; 8]), SmallBank::default());
}

/// C.3's positions: short 200 net at 15% is 30, 3,000 gross at 3% is 90. The ladder gives 79.2.
#[test]
fn c3_under_the_simplified_approach() {
    let book = commodity(&C3);
    assert_eq!(small_bank(&book), costs(0, 200 * 150_000 + 3_000 * 30_000));
    assert_eq!(small_bank(&book).commodity, 120_000_000);
    assert_eq!(commodity_ladder(&book, 5).charge, 79_200_000);
}

/// Catches days that are looked at: C.3's positions on one day, and at the ends of the range.
#[test]
fn days_change_nothing() {
    for days in [0, 30, 31, 1080, 1081, 36_000] {
        let nets = C3.map(|(_, net)| (days, net));
        assert_eq!(small_bank(&commodity(&nets)), costs(0, 120_000_000));
    }
    // Long and short ten years apart net like those of one day.
    let apart = small_bank(&commodity(&[(0, 10), (3_600, -10)]));
    assert_eq!(apart, costs(0, 20 * 30_000));
}

/// Catches 3% of the net, 15% of the gross, 3% of one side, and either part left out.
#[test]
fn one_unit_long_and_one_short() {
    assert_eq!(small_bank(&commodity(&[(0, 1)])), costs(0, 180_000));
    assert_eq!(small_bank(&commodity(&[(0, -1)])), costs(0, 180_000));
    assert_eq!(small_bank(&commodity(&[(0, 1), (0, -1)])), costs(0, 60_000));
    assert_eq!(
        small_bank(&commodity(&[(0, 3), (9, -1)])),
        costs(0, 2 * 150_000 + 4 * 30_000)
    );
}

/// Catches a long of one commodity that is set against a short of another.
#[test]
fn each_commodity_is_netted_by_itself() {
    let apart = small(&[], &[(4, 0, 10), (5, 0, -10)]);
    assert_eq!(small_bank(&apart), costs(0, 2 * 10 * 180_000));
    let several = small(
        &[],
        &[(0, 60, 7), (31, 0, -4), (0, 400, -2), (31, 9_000, -1)],
    );
    let (first, last) = (5 * 150_000 + 9 * 30_000, 5 * 180_000);
    assert_eq!(small_bank(&several), costs(0, first + last));
}

/// Table 6 of the Amendment beside C.3: currencies, gold without its sign, and commodities, of
/// which group 0 is one like the others.
#[test]
fn exchange_is_document_01_s() {
    let nets = [(1, 50), (2, 100), (3, 150), (4, -20), (5, -180), (0, -35)];
    let c3 = C3.map(|(days, net)| (0, days, net));
    let book = small(&nets, &c3);
    assert_eq!(small_bank(&book), costs(26_800_000, 120_000_000));
    assert_eq!(small_bank(&book).exchange, charge(&book).exchange);
    assert_eq!(
        small_bank(&exchange(&[(1, 10), (0, -4)])),
        costs(14 * 80_000, 0)
    );
    assert_eq!(small_bank(&exchange(&[(0, 4)])), costs(4 * 80_000, 0));
    assert_eq!(
        small_bank(&exchange(&[(1, 10), (2, -10)])),
        costs(800_000, 0)
    );
    assert_eq!(small_bank(&exchange(&[(1, 10), (1, -10)])), costs(0, 0));
}

/// The largest figures: 4,000 rows of 1,000,000,000 at 18%.
#[test]
fn the_dearest_book() {
    let most = 1_000_000_000;
    let long = small_bank(&commodity(&vec![(36_000, most); 4_000]));
    assert_eq!(long, costs(0, 720_000_000_000_000_000));
    let short = small_bank(&commodity(&vec![(0, -most); 4_000]));
    assert_eq!(short, long);
    let halves = [vec![(0, most); 2_000], vec![(0, -most); 2_000]].concat();
    let matched = small_bank(&commodity(&halves));
    assert_eq!(matched, costs(0, 120_000_000_000_000_000));
}

/// Joined, each figure is at most the sum of the two; here the nets meet.
#[test]
fn two_books_joined() {
    let a = small(&[(1, 50), (0, -5)], &[(7, 10, 100), (8, 10, 3)]);
    let b = small(&[(1, -20), (0, 2)], &[(7, 9_000, -60)]);
    let mut joined = vec![0; a.len() + b.len() - 8];
    assert!(second::join(&a, &b, &mut joined).refusal.accepted());
    assert_eq!(small_bank(&a), costs(55 * 80_000, 103 * 180_000));
    assert_eq!(small_bank(&b), costs(22 * 80_000, 60 * 180_000));
    let commodity = 43 * 150_000 + 163 * 30_000;
    assert_eq!(small_bank(&joined), costs(33 * 80_000, commodity));
}

#[test]
fn entries_as_the_call_lays_them_out() {
    let book = small(&[(1, 1)], &[(1, 0, 1)]);
    assert_eq!(
        small_bank(&book).entries(),
        [0, 0, 0, 80_000, 180_000, 260_000]
    );
    let bad = small(&[(1, 1)], &[(32, 0, 1)]);
    assert_eq!(small_bank(&bad).entries(), [4, 1, 0, 0, 0, 0]);
    assert_eq!(
        small_bank(&equity(&[clean(1)])).entries(),
        [20, 0, 0, 0, 0, 0]
    );
}
