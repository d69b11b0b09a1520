//! The least trade (document 02, P13), worked by hand: of currency 7, and under document 01's table
//! where no other is named.

mod common;
use common::least_trade::*;
use common::*;

/// Long 100 in band 3, at 70: 700,000. A short of 1 in the band turns 70 from 100% to 10%, and takes
/// 6,300 off, down to 70,000 at 100; then it adds 7,000. A long of 1 always adds 7,000.
#[test]
fn within_the_band() {
    let (table, rows) = (second::table(), [bond(270, 100)]);
    let expected = [
        (u64::MAX, Some(0)),
        (700_001, Some(0)),
        (700_000, Some(0)),
        (699_999, Some(1)),
        (693_700, Some(1)),
        (693_699, Some(2)),
        (385_000, Some(50)),
        (384_999, Some(51)),
        (76_300, Some(99)),
        (76_299, Some(100)),
        (70_000, Some(100)),
        (69_999, None),
        (0, None),
    ];
    either_way(&table, &rows, 3, SHORT, &expected);
    let expected = [(u64::MAX, Some(0)), (700_000, Some(0)), (699_999, None)];
    either_way(&table, &rows, 3, LONG, &expected);
    let expected = [(0, 700_000), (1, 693_700), (100, 70_000), (101, 77_000)];
    charges(&table, &rows, 3, SHORT, &expected);
    charges(&table, &rows, 3, LONG, &[(0, 700_000), (1, 707_000)]);
}

/// Long 100 in band 3. At 40% against band 2, at 40: 2,400 off for each, down to 280,000 at 175. Against
/// band 5, at 175, also at 40%: 10,500 off, down to 280,000 at 40. Zone 3 is matched at 100%: nothing
/// off, and from 16 in band 10, at 450, there is more on its side.
#[test]
fn from_zone_1_to_every_zone() {
    let (table, rows) = (second::table(), [bond(270, 100)]);
    let band_2 = [
        (676_000, Some(10)),
        (675_999, Some(11)),
        (280_000, Some(175)),
        (279_999, None),
    ];
    either_way(&table, &rows, 2, SHORT, &band_2);
    let band_5 = [
        (595_000, Some(10)),
        (594_999, Some(11)),
        (280_000, Some(40)),
        (279_999, None),
    ];
    either_way(&table, &rows, 5, SHORT, &band_5);
    let band_10 = [(700_000, Some(0)), (699_999, None)];
    either_way(&table, &rows, 10, SHORT, &band_10);
    let expected = [(0, 700_000), (15, 700_000), (16, 720_000)];
    charges(&table, &rows, 10, SHORT, &expected);
}

/// Long 100 in band 4, at 125: 12,500. At 30% against band 6, at 225: 15,750 off for each. With 55 there
/// is 125 left, 371,250 + 12,500; with 56 there is 100 on the other side, 375,000 + 10,000: 55 is the
/// only amount below 385,000.
#[test]
fn the_only_amount_in_zone_2() {
    let (table, rows) = (second::table(), [bond(700, 100)]);
    let expected = [
        (1_234_250, Some(1)),
        (1_234_249, Some(2)),
        (399_500, Some(54)),
        (399_499, Some(55)),
        (384_999, Some(55)),
        (383_750, Some(55)),
        (383_749, None),
    ];
    either_way(&table, &rows, 6, SHORT, &expected);
    let expected = [(54, 399_500), (55, 383_750), (56, 385_000)];
    charges(&table, &rows, 6, SHORT, &expected);
}

/// Long 100 in band 7, at 275: 27,500. At 30% against band 8, at 325: with 84 there is 200 left, 819,000 +
/// 20,000; with 85 there is 125 on the other side, 825,000 + 12,500.
#[test]
fn the_only_amount_in_zone_3() {
    let (table, rows) = (second::table(), [bond(1_500, 100)]);
    let expected = [
        (839_000, Some(84)),
        (838_999, Some(85)),
        (837_500, Some(85)),
        (837_499, None),
    ];
    either_way(&table, &rows, 8, SHORT, &expected);
    let expected = [(84, 839_000), (85, 837_500), (86, 870_000)];
    charges(&table, &rows, 8, SHORT, &expected);
}

/// Catches 1,000,000 left out, and an amount past it. Long 2,000,000 in band 3 with all 1,000,000: 700 x
/// 10,000,000 left, and 10% of 70,000,000. Of long 1,000,001 all would be matched with one more.
#[test]
fn a_million_is_the_last() {
    let table = second::table();
    let expected = [
        (7_700_006_300, Some(999_999)),
        (7_700_006_299, Some(1_000_000)),
        (7_700_000_000, Some(1_000_000)),
        (7_699_999_999, None),
    ];
    either_way(&table, &[bond(270, 2_000_000)], 3, SHORT, &expected);
    let expected = [(700_000_000, Some(1_000_000)), (699_999_999, None)];
    either_way(&table, &[bond(270, 1_000_000)], 3, SHORT, &expected);
    let expected = [
        (700_007_000, Some(1_000_000)),
        (700_006_999, None),
        (700_000_700, None),
    ];
    either_way(&table, &[bond(270, 1_000_001)], 3, SHORT, &expected);
}
