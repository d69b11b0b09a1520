//! Tables that are refused: every condition broken alone by one, wrong lengths, and the order
//! with ladder groups and bad books; and the tables just beside them, which are accepted.

use super::build::{book, call, charge_by, clean, ladder_by, only, row, Call, Case};
use books::names::FLOATING;
use books::tables::{Table, BANDS};
use books::Row;

/// A table of which every field can be changed by one without breaking two conditions.
const BASE: Table = Table {
    weights: [500; BANDS],
    vertical: 40,
    zones: [40; 3],
    adjacent: 40,
    zones_1_3: 40,
};

/// The table with its weights from a band on changed.
fn from(band: usize, weight: u16) -> Table {
    let mut table = BASE;
    table.weights[band..].fill(weight);
    table
}

/// The table with one per cent, by its place from vertical to 1-3, changed.
fn per_cent(place: usize, per_cent: u8) -> Table {
    let mut bytes = BASE.encode();
    bytes[2 * BANDS + place] = per_cent;
    Table::decode(&bytes).expect("36 bytes")
}

/// Each condition broken alone by one: a weight below that of the band before, from each band on
/// and in one band alone; 2,001 from each band on; vertical over each zone; each zone over
/// adjacent; adjacent over 1-3; 1-3 over 100.
fn broken() -> Vec<Table> {
    let mut tables: Vec<Table> = (1..BANDS).map(|band| from(band, 499)).collect();
    tables.extend([1, 7, 13].map(|band| {
        let mut dip = BASE;
        dip.weights[band] = 499;
        dip
    }));
    tables.extend((0..BANDS).map(|band| {
        let mut high = from(0, 2_000);
        high.weights[band..].fill(2_001);
        high
    }));
    tables.extend([1, 2, 3].map(|zone| per_cent(zone, 39)));
    tables.extend([1, 2, 3].map(|zone| per_cent(zone, 41)));
    tables.extend([per_cent(5, 39), per_cent(5, 101)]);
    tables
}

/// The same on the other side of each limit.
fn beside() -> Vec<Table> {
    let mut tables: Vec<Table> = (0..BANDS).map(|band| from(band, 501)).collect();
    tables.extend((0..BANDS).map(|band| {
        let mut high = from(0, 1_999);
        high.weights[band..].fill(2_000);
        high
    }));
    tables.extend([per_cent(0, 39), per_cent(5, 41), per_cent(5, 100)]);
    tables
}

/// A row in each of the fifteen bands of currency 7, on both sides, and shorts beside the first.
fn every_band() -> Vec<u8> {
    let days = [
        30, 90, 180, 360, 684, 1008, 1296, 1548, 2052, 2628, 3348, 3816, 4320, 7200, 36_000,
    ];
    let net = |band: i64| (1 + band) * [1, -2, 4][band as usize % 3];
    let rows = days.iter().zip(0..);
    let rows = rows.map(|(days, band)| row(7, 1, *days, 299, net(band)));
    only(
        0,
        &rows.chain([row(7, 1, 0, 300, -9)]).collect::<Vec<Row>>(),
    )
}

/// A small book with a row in each zone of currency 7.
fn small() -> Vec<u8> {
    let rows = [(270, 75), (900, -30), (6_000, 10)];
    only(0, &rows.map(|(days, net)| row(7, 1, days, 800, net)))
}

/// Books that are refused with 1 to 9 and 15.
pub fn bad_books() -> Vec<Vec<u8>> {
    let second = |bad: Row| only(0, &[clean(0), bad]);
    vec![
        vec![0; 7],
        vec![255; 8],
        small()[..55].to_vec(),
        second(clean(0).with_group(32)),
        second(clean(0).with_kind(5)),
        second(clean(0).with_days(36_001)),
        second(clean(0).with_coupon(10_001)),
        second(clean(0).with_sides(1, 1)),
        book([&[], &[], &[], &[clean(3).with_sides(0, 1_000_000_001)]]),
        second(clean(0).with_kind(FLOATING).with_days(361)),
    ]
}

/// Tables of other lengths than 36, each with a good book and a bad one.
fn lengths() -> Vec<Case> {
    let whole: Vec<u8> = second::table().iter().cycle().take(256).copied().collect();
    let mut cases = Vec::new();
    for length in [0, 1, 30, 35, 37, 72, 256] {
        for book in [small(), vec![]] {
            cases.push(charge_by(&whole[..length], &book));
            cases.push(ladder_by(&whole[..length], 7, &book));
        }
    }
    cases
}

/// A ladder's group before the table, and the table before the book.
fn order() -> Vec<Case> {
    let (short, high, good) = ([0; 35], per_cent(5, 101).encode(), BASE.encode());
    let mut cases = Vec::new();
    for (at, book) in bad_books().iter().enumerate() {
        let group = [32, 33, 255, 256, 65_535][at % 5];
        for table in [&short[..], &high, &good] {
            cases.push(charge_by(table, book));
            cases.push(ladder_by(table, 31, book));
            cases.push(ladder_by(table, group, book));
        }
    }
    for table in [&short[..], &high, &good] {
        cases.push(ladder_by(table, 32, &small()));
    }
    cases
}

/// All of them.
pub fn cases() -> Vec<Case> {
    let mut cases = vec![call(Call::Table, &[])];
    for table in broken() {
        cases.push(charge_by(&table.encode(), &small()));
        cases.push(ladder_by(&table.encode(), 7, &small()));
    }
    for table in beside() {
        cases.push(ladder_by(&table.encode(), 7, &every_band()));
    }
    cases.push(charge_by(&BASE.encode(), &every_band()));
    cases.extend(lengths());
    cases.extend(order());
    cases
}

#[cfg(test)]
mod tests {
    use super::super::answers::lines;
    use super::*;
    use std::collections::BTreeSet;

    /// The numbers of the refusals of some calls.
    fn numbers(cases: &[Case]) -> Vec<u64> {
        let number = |line: &str| line.split(' ').nth(1).unwrap().parse().unwrap();
        lines(cases).lines().map(number).collect()
    }

    /// Which of the ten conditions a table breaks.
    fn breaks(table: &Table) -> Vec<usize> {
        let Table { weights, zones, .. } = table;
        let mut breaks = vec![
            weights.windows(2).any(|pair| pair[0] > pair[1]),
            weights[14] > 2_000,
        ];
        breaks.extend(zones.map(|zone| table.vertical > zone));
        breaks.extend(zones.map(|zone| zone > table.adjacent));
        breaks.push(table.adjacent > table.zones_1_3);
        breaks.push(table.zones_1_3 > 100);
        (0..10).filter(|at| breaks[*at]).collect()
    }

    /// Catches a condition that is not stored, or is stored with another.
    #[test]
    fn every_condition_is_broken_alone() {
        let ways: Vec<Vec<usize>> = broken().iter().map(breaks).collect();
        assert!(ways.iter().all(|ways| ways.len() == 1));
        let seen: BTreeSet<usize> = ways.concat().into_iter().collect();
        assert!(seen.into_iter().eq(0..10));
        assert!(beside().iter().all(|table| breaks(table).is_empty()));
    }

    /// Catches a table that is stored with another refusal than its own.
    #[test]
    fn broken_tables_are_19_and_those_beside_them_are_accepted() {
        for table in broken() {
            let table = table.encode();
            let calls = [charge_by(&table, &small()), ladder_by(&table, 7, &small())];
            assert_eq!(numbers(&calls), [19; 2]);
            let zeros = " 0".repeat(74);
            assert!(lines(&calls).starts_with(&format!("charge 19{zeros}\n")));
        }
        for table in beside() {
            let ladder = ladder_by(&table.encode(), 7, &every_band());
            assert_eq!(numbers(&[ladder]), [0]);
        }
    }

    /// Catches tables that the stored ladders cannot tell from each other.
    #[test]
    fn weights_beside_the_limits_give_figures_of_their_own() {
        let ladder = |table: &Table| lines(&[ladder_by(&table.encode(), 7, &every_band())]);
        let figures: BTreeSet<String> = beside()[..2 * BANDS].iter().map(ladder).collect();
        assert_eq!(figures.len(), 2 * BANDS);
    }

    /// Catches another order than 10; 18, 19; the book.
    #[test]
    fn groups_come_before_tables_and_these_before_books() {
        let expected = [18, 18, 10, 19, 19, 10];
        let stored = numbers(&order());
        let (books, last) = stored.split_at(90);
        for (numbers, of_book) in books.chunks(9).zip([1, 2, 3, 4, 5, 6, 7, 8, 9, 15]) {
            assert_eq!(numbers[..6], expected);
            assert_eq!(numbers[6..], [of_book, of_book, 10]);
        }
        assert_eq!(last, [10; 3]);
        assert_eq!(numbers(&lengths()), [18; 28]);
    }
}
