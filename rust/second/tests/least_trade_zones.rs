//! The least trade (document 02, P13) in books that use three zones, worked by hand: under document 01's table
//! where no other is named.

mod common;
use common::least_trade::*;
use common::*;

/// Long 75 in band 3, short 20 in band 11 and short 60 in band 5: 5,250, -10,500 and -10,500. Longs in
/// band 5, at 175, all bear 10% against its shorts; of each unit of weight zone 2 has
/// - up to 30: less left on the side of zone 3, 90 off: 1,785,000 to 1,312,500;
/// - up to 60: less matched with zone 1, which is matched with zone 3 instead, 30 off: 1,155,000;
/// - up to 90: more matched with zone 3, 60 off: 840,000;
/// - up to 120: zone 3 taken from zone 1, which is left: 40 on, 1,050,000; and then 100 on.
///
/// The charge falls, falls less, and falls more again.
#[test]
fn three_zones() {
    let rows = [bond(270, 75), bond(900, -60), bond(6_000, -20)];
    let table = second::table();
    let expected = [
        (0, 1_785_000),
        (30, 1_312_500),
        (60, 1_155_000),
        (90, 840_000),
        (120, 1_050_000),
        (121, 1_067_500),
    ];
    charges(&table, &rows, 5, LONG, &expected);
    let expected = [
        (1_785_000, Some(0)),
        (1_784_999, Some(1)),
        (1_312_500, Some(30)),
        (1_312_499, Some(31)),
        (1_307_249, Some(32)),
        (1_155_000, Some(60)),
        (1_154_999, Some(61)),
        (850_500, Some(89)),
        (850_499, Some(90)),
        (840_000, Some(90)),
        (839_999, None),
    ];
    either_way(&table, &rows, 5, LONG, &expected);
}

/// The same book. From 85 to 98 the charge is within 900,000: 10,500 off for each up to 90, and 7,000 on
/// for each after it.
#[test]
fn the_first_of_those_in_the_middle() {
    let rows = [bond(270, 75), bond(900, -60), bond(6_000, -20)];
    let table = second::table();
    let expected = [(84, 903_000), (85, 892_500), (98, 896_000), (99, 903_000)];
    charges(&table, &rows, 5, LONG, &expected);
    either_way(&table, &rows, 5, LONG, &[(900_000, Some(85))]);
}

/// The same book, band 6 at 175 too and 40% within zone 2: what band 6 takes off at 40% between zones it
/// bears within the zone. Up to 30 units 60 off, to 1,470,000; up to 60 nothing; up to 90 again 60 off, to
/// 1,155,000; then 40 on. Catches a search that ends where the charge does not fall.
#[test]
fn past_amounts_that_change_nothing() {
    let rows = [bond(270, 75), bond(900, -60), bond(6_000, -20)];
    let table = with_weights(6, &[175], [10, 40, 40, 30, 40, 100]);
    let expected = [
        (0, 1_785_000),
        (30, 1_470_000),
        (31, 1_470_000),
        (60, 1_470_000),
        (90, 1_155_000),
        (91, 1_162_000),
    ];
    charges(&table, &rows, 6, LONG, &expected);
    let expected = [
        (1_470_000, Some(30)),
        (1_469_999, Some(61)),
        (1_459_500, Some(61)),
        (1_459_499, Some(62)),
        (1_155_000, Some(90)),
        (1_154_999, None),
    ];
    either_way(&table, &rows, 6, LONG, &expected);
}

/// C.2 of the Amendment, 4,580,112,500. Longs from 7 to 10 years are matched there at 10% and leave less
/// over: 33,750 off for each. 17,188 of them leave 4,000,017,500, one more 3,999,983,750.
#[test]
fn the_example_of_the_amendment_under_4_000_000() {
    let rows = [
        row(7, 2, 2_880, 800, 13_330),
        bond(60, 75_000),
        bond(270, 150_000),
        bond(2_880, -150_000),
        bond(180, -50_000),
        bond(1_260, 50_000),
    ];
    let table = second::table();
    let expected = [
        (4_580_112_500, Some(0)),
        (4_000_017_500, Some(17_188)),
        (4_000_000_000, Some(17_189)),
        (3_999_983_750, Some(17_189)),
        (3_999_983_749, Some(17_190)),
    ];
    either_way(&table, &rows, 9, LONG, &expected);
}
