//! The least trade that brings a currency within its limit, over the linked library: amounts worked out by hand,
//! every band and side, the ends of the range, and the refusals in their order.

use market_risk::{least_trade, raw, Side, Table};

/// A row of 16 bytes of currency 7, government, long above zero and short below.
fn row(days: u16, coupon: u16, net: i64) -> [u8; 16] {
    let mut row = [0; 16];
    row[..2].copy_from_slice(&[7, 1]);
    row[2..4].copy_from_slice(&days.to_le_bytes());
    row[4..6].copy_from_slice(&coupon.to_le_bytes());
    let (at, amount) = (if net > 0 { 8 } else { 12 }, net.unsigned_abs() as u32);
    row[at..at + 4].copy_from_slice(&amount.to_le_bytes());
    row
}

/// A book of interest rows.
fn book(rows: &[[u8; 16]]) -> Vec<u8> {
    let mut book = (rows.len() as u16).to_le_bytes().to_vec();
    book.extend([0; 6]);
    book.extend(rows.concat());
    book
}

/// A book of rows at coupon 8%, by days and nets.
fn bonds(nets: &[(u16, i64)]) -> Vec<u8> {
    let rows: Vec<[u8; 16]> = nets
        .iter()
        .map(|(days, net)| row(*days, 800, *net))
        .collect();
    book(&rows)
}

/// The least trade in currency 7 under document 01's table.
fn trade(book: &[u8], band: usize, side: Side, limit: u64) -> Option<u64> {
    least_trade(book, &Table::amendment(), 7, band, side, limit).unwrap()
}

/// The last day of each band below 3%, and its weight.
const BANDS: [(u16, u64); 15] = [
    (30, 0),
    (90, 20),
    (180, 40),
    (360, 70),
    (684, 125),
    (1_008, 175),
    (1_296, 225),
    (1_548, 275),
    (2_052, 325),
    (2_628, 375),
    (3_348, 450),
    (3_816, 525),
    (4_320, 600),
    (7_200, 800),
    (36_000, 1_250),
];

/// 100 units in a band, and the other side of it: each unit leaves 100% less and matches 10%. Catches a band or a
/// side that is another's, a charge that must be below the limit, and a limit that is one off.
#[test]
fn every_band_and_side() {
    for (band, (days, weight)) in BANDS.into_iter().enumerate() {
        for (net, side, same) in [
            (100, Side::Short, Side::Long),
            (-100, Side::Long, Side::Short),
        ] {
            let held = book(&[row(days, 0, net)]);
            let cost = |units: u64| weight * (10_000 - 90 * units);
            for units in [0, 1, 50, 99, 100] {
                let expected = if weight == 0 { 0 } else { units };
                assert_eq!(
                    trade(&held, band, side, cost(units)),
                    Some(expected),
                    "{band}"
                );
            }
            assert_eq!(trade(&held, band, same, cost(0)), Some(0));
            if weight != 0 {
                assert_eq!(trade(&held, band, side, cost(50) - 1), Some(51), "{band}");
                assert_eq!(trade(&held, band, side, cost(50) + 1), Some(50), "{band}");
                assert_eq!(trade(&held, band, side, cost(100) - 1), None, "{band}");
                assert_eq!(trade(&held, band, same, cost(0) - 1), None, "{band}");
            }
        }
    }
}

/// Catches a range that ends before 1,000,000 or after it: 1,000,000 units cost 1,750 each when they are matched, and
/// the last unit 17,500 when it is not.
#[test]
fn the_ends_of_the_range() {
    let all = bonds(&[(900, 1_000_000)]);
    assert_eq!(trade(&all, 5, Side::Short, 1_750_000_000), Some(1_000_000));
    assert_eq!(trade(&all, 5, Side::Short, 1_749_999_999), None);
    let more = bonds(&[(900, 1_000_001)]);
    assert_eq!(trade(&more, 5, Side::Short, 1_750_017_500), Some(1_000_000));
    // One unit more would cost 1,750,001,750.
    assert_eq!(trade(&more, 5, Side::Short, 1_750_017_499), None);
    assert_eq!(trade(&more, 5, Side::Short, 1_750_001_750), None);
    // 999,999 units cost 15,750 more than 1,000,000.
    assert_eq!(trade(&more, 5, Side::Short, 1_750_033_249), Some(1_000_000));
    assert_eq!(trade(&more, 5, Side::Short, 1_750_033_250), Some(999_999));
    assert_eq!(trade(&more, 5, Side::Long, u64::MAX), Some(0));
}

/// E3: zone 1 long 5,250, zone 2 short 5,250, zone 3 long 5,250: 40% of zones 1 and 2, and 100% of zone 3.
#[test]
fn three_zones() {
    let e3 = bonds(&[(270, 75), (900, -30), (6_000, 10)]);
    assert_eq!(trade(&e3, 5, Side::Short, 735_000), Some(0));
    // A unit short in zone 2 is left over by zone 1 and matches 175 of zone 3 at 40%: 10,500 less. 30 use zone 3 up.
    assert_eq!(trade(&e3, 5, Side::Short, 734_999), Some(1));
    assert_eq!(trade(&e3, 5, Side::Short, 700_000), Some(4));
    assert_eq!(trade(&e3, 5, Side::Short, 420_000), Some(30));
    assert_eq!(trade(&e3, 5, Side::Short, 419_999), None);
    // In band 4 a unit is 125: 7,500 less. 42 of them are 5,250.
    assert_eq!(trade(&e3, 4, Side::Short, 420_000), Some(42));
    // A unit short in zone 3 leaves 525 less and matches them within the band at 10%: 47,250 less.
    assert_eq!(trade(&e3, 11, Side::Short, 500_000), Some(5));
    assert_eq!(trade(&e3, 11, Side::Short, 262_500), Some(10));
    assert_eq!(trade(&e3, 11, Side::Short, 262_499), None);
    // A unit long in zone 2 takes from the match with zone 1 and leaves more of it.
    assert_eq!(trade(&e3, 5, Side::Long, 734_999), None);
}

/// Catches a search that stops where the charge no longer falls. Zone 1 is long 5,250, zone 2 short 5,250 and zone 3
/// short 15,750, with 40% in zone 2: 210,000 and 1,575,000. A unit long in band 4, 125, matches within zone 2 at 40%,
/// and zone 1 matches so much less with it at 40%; what this leaves of zone 1 matches zone 3 at 100%. From 42 units on
/// zone 2 is long and matches zone 3 at 40%: 7,500 less a unit, for 84 units.
#[test]
fn a_charge_that_stays_before_it_falls() {
    let mut table = *Table::amendment().bytes();
    table[32] = 40;
    let table = Table::new(&table).unwrap();
    let held = bonds(&[(270, 75), (900, -30), (6_000, -30)]);
    let least = |limit| least_trade(&held, &table, 7, 4, Side::Long, limit).unwrap();
    assert_eq!(least(1_785_000), Some(0));
    assert_eq!(least(1_784_999), Some(43));
    assert_eq!(least(1_350_000), Some(100));
    assert_eq!(least(1_155_000), Some(126));
    assert_eq!(least(1_154_999), None);
}

/// Catches an amount that is taken for a row, of which a book has no more than 4,000.
#[test]
fn a_full_book() {
    let full = bonds(&[(900, 1); 4_000]);
    // 4,000 x 17,500, and 15,750 less for each unit.
    assert_eq!(trade(&full, 5, Side::Short, 70_000_000), Some(0));
    assert_eq!(trade(&full, 5, Side::Short, 69_999_999), Some(1));
    assert_eq!(
        trade(&full, 5, Side::Short, 70_000_000 - 15_750 * 3_999),
        Some(3_999)
    );
}

/// Catches rows of another currency or class that are counted, and a currency without rows that is none.
#[test]
fn only_the_currency_counts() {
    let mut mixed = bonds(&[(900, 100), (900, 100)]);
    mixed[8 + 16] = 8;
    mixed[4] = 1; // gold, short 5
    mixed.extend([0, 0, 0, 0, 0, 0, 0, 0, 0, 0, 0, 0, 5, 0, 0, 0]);
    assert_eq!(trade(&mixed, 5, Side::Short, 1_000_000), Some(48));
    let table = Table::amendment();
    assert_eq!(
        least_trade(&mixed, &table, 0, 5, Side::Short, 0),
        Ok(Some(0))
    );
    assert_eq!(
        least_trade(&[0; 8], &table, 31, 14, Side::Long, 0),
        Ok(Some(0))
    );
}

/// Under a table of its own: 100 basis points in each band, 20% within bands. With 100% there a trade never helps.
#[test]
fn the_lent_table_counts() {
    let bond = bonds(&[(900, 100)]);
    let table = |vertical: u8, others: u8| {
        let mut bytes = [100, 0].repeat(15);
        bytes.push(vertical);
        bytes.extend([others; 5]);
        Table::new(&bytes).unwrap()
    };
    let least = |table: &Table, limit| least_trade(&bond, table, 7, 5, Side::Short, limit);
    assert_eq!(least(&table(20, 30), 1_000_000), Ok(Some(0)));
    assert_eq!(least(&table(20, 30), 896_000), Ok(Some(13)));
    assert_eq!(least(&table(20, 30), 895_999), Ok(Some(14)));
    assert_eq!(least(&table(0, 0), 0), Ok(Some(100)));
    assert_eq!(least(&table(100, 100), 1_000_000), Ok(Some(0)));
    assert_eq!(least(&table(100, 100), 999_999), Ok(None));
}

/// The whole of a call.
fn called(book: &[u8], table: &[u8], [group, band, side]: [usize; 3]) -> [u64; 5] {
    let mut result = [u64::MAX; 5];
    raw::least_trade(book, table, group, band, side, 0, &mut result);
    result
}

/// 10, 18, 19, 21, and then the book, each before all that come after it; a refused call gives no amount.
#[test]
fn refusals_in_their_order() {
    let table = Table::amendment();
    let (good, mut falling) = (table.bytes(), *table.bytes());
    falling[0] = 21;
    let bad = bonds(&[(900, 1), (36_001, 1)]);
    let refused = |number, row| [number, row, 0, 0, 0];
    for book in [&[][..], &[0; 9], &bad] {
        for outside in [[15, 0], [14, 2], [usize::MAX, usize::MAX]] {
            let [band, side] = outside;
            for table in [&falling[..35], &falling, good, &[]] {
                for group in [32, usize::MAX] {
                    assert_eq!(called(book, table, [group, band, side]), refused(10, 0));
                }
            }
            assert_eq!(
                called(book, &falling[..35], [31, band, side]),
                refused(18, 0)
            );
            assert_eq!(called(book, &falling, [31, band, side]), refused(19, 0));
            assert_eq!(called(book, good, [31, band, side]), refused(21, 0));
        }
    }
    assert_eq!(called(&[], good, [31, 14, 1]), refused(1, 0));
    assert_eq!(called(&[0; 9], good, [31, 14, 1]), refused(3, 0));
    assert_eq!(called(&bad, good, [31, 14, 1]), refused(6, 1));
    assert_eq!(called(&bad[..24], good, [31, 14, 1]), refused(3, 0));
    assert_eq!(called(&[0; 8], good, [31, 14, 1]), [0, 0, 0, 1, 0]);
}
