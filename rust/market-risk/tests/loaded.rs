//! The figures follow the table that is loaded: books worked by hand under another than
//! document 01's.

use market_risk::{charge, interest_ladder, Table};

/// A government bond of currency 7 at coupon 800.
fn bond(days: u16, net: i32) -> [u8; 16] {
    let mut row = [0; 16];
    row[..2].copy_from_slice(&[7, 1]);
    row[2..4].copy_from_slice(&days.to_le_bytes());
    row[4..6].copy_from_slice(&800u16.to_le_bytes());
    let at = if net > 0 { 8 } else { 12 };
    row[at..at + 4].copy_from_slice(&net.unsigned_abs().to_le_bytes());
    row
}

/// A book of interest rows.
fn interest(rows: &[[u8; 16]]) -> Vec<u8> {
    [&[rows.len() as u8, 0, 0, 0, 0, 0, 0, 0], &rows.concat()[..]].concat()
}

/// A table without a figure of document 01's: band g bears 2 × (g + 1) basis points.
fn small() -> Table {
    let weights = (1..=15).flat_map(|number| [2 * number, 0]);
    let bytes: Vec<u8> = weights.chain([3, 20, 30, 35, 50, 90]).collect();
    Table::new(&bytes).unwrap()
}

/// Every step of the ladder but 2-3 matches something, and each of the six per cents differs,
/// so that no per cent can stand for another and no weight for document 01's.
///
/// The bands, with their weights:
///   1 (60 days, 4): long 100 × 4 = 400, short 25 × 4 = 100: matched 100, net 300
///   2 (150 days, 6): short 10 × 6 = 60
///   3 (270 days, 8): long 110 × 8 = 880      zone 1: matched 60, net 1,120
///   4 (600 days, 10): long 8 × 10 = 80
///   5 (900 days, 12): short 50 × 12 = 600    zone 2: matched 80, net -520
///   7 (1,500 days, 16): long 5 × 16 = 80
///   8 (2,160 days, 18): short 20 × 18 = 360  zone 3: matched 80, net -280
/// Zones 1 and 2 match 520 and leave 600; zone 2 has nothing left for zone 3; zones 1 and 3
/// match 280 and leave 320. Gross 400+100+60+880+80+600+80+360 = 2,560. The charge is
/// 100×3 + 60×20 + 80×30 + 80×35 + 520×50 + 280×90 + 320×100 mils = 89,900.
#[test]
fn figures_follow_the_loaded_table() {
    let book = interest(&[
        bond(60, 100),
        bond(60, -25),
        bond(150, -10),
        bond(270, 110),
        bond(600, 8),
        bond(900, -50),
        bond(1_500, 5),
        bond(2_160, -20),
    ]);
    let ladder = interest_ladder(&book, &small(), 7).unwrap();
    assert_eq!((ladder.gross, ladder.vertical), (2_560, 100));
    assert_eq!(ladder.zones, [60, 80, 80]);
    let between = [ladder.zones_1_2, ladder.zones_2_3, ladder.zones_1_3];
    assert_eq!(between, [520, 0, 280]);
    assert_eq!((ladder.residual, ladder.charge), (320, 89_900));
    let report = charge(&book, &small()).unwrap();
    assert_eq!(
        (report.interest_general, report.generals[7]),
        (89_900, 89_900)
    );
    assert_eq!((report.interest_specific, report.total), (0, 89_900));
}

/// Zones 2 and 3: band 4 long 10 × 10 = 100, band 7 short 5 × 16 = 80. They match 80 at 50%
/// and leave 20: 80 × 50 + 20 × 100 mils.
#[test]
fn zones_2_and_3_take_the_adjacent_per_cent() {
    let book = interest(&[bond(600, 10), bond(1_500, -5)]);
    let ladder = interest_ladder(&book, &small(), 7).unwrap();
    assert_eq!((ladder.zones_2_3, ladder.residual), (80, 20));
    assert_eq!(ladder.charge, 6_000);
}
