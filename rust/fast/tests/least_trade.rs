//! The fast search for the least trade gives what the second calculation gives, entry by entry.

mod common;

use books::damage::damage;
use books::generate::{book, row, Shape};
use books::tables::random::{accepted, broken, of_wrong_length, WAYS};
use books::tables::{Table, BANDS};
use books::{Book, Random, Row};
use common::{compare_least_trade, Place};

/// Interest rows of one currency, of amounts up to this one.
fn rows(random: &mut Random, shape: &Shape, most: u64) -> Vec<Row> {
    let of_amount = |random: &mut Random| {
        let (row, amount) = (row(random, 0, shape), 1 + random.below(most) as u32);
        let sides = [(amount, 0), (0, amount)];
        let (long, short) = random.pick(&sides);
        row.with_sides(long, short)
    };
    (0..shape.rows).map(|_| of_amount(random)).collect()
}

/// A random table, or document 01's.
fn any_table(random: &mut Random) -> Vec<u8> {
    match random.once_in(2) {
        true => second::table().to_vec(),
        false => accepted(random).encode(),
    }
}

/// A limit that some amount below this one just meets or just misses; half of the time below the charge as it is.
fn near(random: &mut Random, book: &[u8], table: &[u8], place: Place, below: u64) -> u64 {
    let [group, band, side] = place;
    let charge = |amount: u64| second::charge_with(book, table, group, band, side, amount).unwrap();
    let limit = charge(random.below(below)).saturating_sub(random.below(2));
    match random.once_in(2) {
        true => limit,
        false => limit.min(charge(0).saturating_sub(1)),
    }
}

/// What came up in a test: an amount of 0, another and none, in each zone and on each side.
#[derive(Debug, Default)]
struct Seen([[[u64; 3]; 2]; 3]);

impl Seen {
    fn add(&mut self, [_, band, side]: Place, entries: [u64; 5]) {
        let sort = match entries[3..] {
            [1, 0] => 0,
            [1, _] => 1,
            _ => 2,
        };
        self.0[second::zone_of_band(band) - 1][side][sort] += 1;
    }

    /// Each must have come up so often.
    fn all(&self, least: u64) {
        let counts = self.0.as_flattened().as_flattened();
        assert!(counts.iter().all(|count| *count >= least), "{self:?}");
    }
}

/// Compares one random case of rows up to some amount, under a limit that one just meets or misses.
fn random_case(random: &mut Random, most: u64, seen: &mut Seen) {
    let shape_rows = 1 + random.below(12) as usize;
    let shape = Shape::of_one_group(random, shape_rows);
    let mut book = Book::default();
    book.classes[0] = rows(random, &shape, most);
    let (bytes, table) = (book.encode().unwrap(), any_table(random));
    let place = [
        shape.groups[0].into(),
        random.below(15) as usize,
        random.below(2) as usize,
    ];
    let limit = near(random, &bytes, &table, place, most);
    seen.add(place, compare_least_trade(&bytes, &table, place, limit));
}

/// Amounts of rows and trades that are alike, so that a trade matches some, all, or more than all.
#[test]
fn random_books() {
    let mut seen = Seen::default();
    for case in 0..160 {
        let mut random = Random::of_case(41, case);
        let most = [10, 100, 1_000, 20_000][case as usize % 4];
        random_case(&mut random, most, &mut seen);
    }
    seen.all(2);
}

/// Limits that are met late, at 1,000,000 itself, and not at all.
#[test]
fn long_searches() {
    for (case, from_last) in (0..12).map(|case| (case, [0, 1, 2, 500_000][case as usize % 4])) {
        let mut random = Random::of_case(42, case);
        let (days, band) = [(270, 3), (900, 5), (2_880, 9)][case as usize % 3];
        let long = Row::default().with_group(7).with_kind(1).with_days(days);
        let long = long.with_coupon(800).with_sides(2_000_000, 0);
        let mut book = Book::default();
        book.classes[0] = vec![long];
        let amount = 1_000_000 - from_last;
        let (bytes, table) = (book.encode().unwrap(), second::table());
        let charge = second::charge_with(&bytes, &table, 7, band, 1, amount).unwrap();
        let short = random.below(2);
        let entries = compare_least_trade(&bytes, &table, [7, band, 1], charge - short);
        let found = match amount + short {
            1_000_001 => [0, 0],
            amount => [1, amount],
        };
        assert_eq!(entries, [0, 0, 0, found[0], found[1]]);
    }
}

/// Catches refusals out of their order: groups, tables, bands and sides at their limits and past them,
/// with damaged books.
#[test]
fn refusals_in_every_order() {
    let mut seen = [0; 22];
    for case in 0..20_000 {
        let mut random = Random::of_case(43, case);
        let shape_rows = random.below(12) as usize;
        let shape = Shape::new(&mut random, shape_rows);
        let mut bytes = book(&mut random, &shape).encode().unwrap();
        (0..random.below(3)).for_each(|_| damage(&mut random, &mut bytes));
        let table = match random.below(10) {
            0 => of_wrong_length(&mut random),
            1 => {
                let way = random.below(WAYS as u64) as usize;
                broken(&mut random, way).encode()
            }
            _ => any_table(&mut random),
        };
        let place = [
            random.pick(&[0, 1, 30, 31, 31, 31, 31, 32, usize::MAX]),
            random.pick(&[0, 1, 3, 4, 6, 7, 13, 14, 15, usize::MAX]),
            random.pick(&[0, 0, 0, 0, 1, 1, 1, 1, 2, usize::MAX]),
        ];
        let limit = u64::MAX - random.below(2);
        let entries = compare_least_trade(&bytes, &table, place, limit);
        seen[entries[0] as usize] += 1;
    }
    let numbers = (0..=10).chain([15, 18, 19, 21]);
    assert!(numbers.clone().all(|number| seen[number] > 0), "{seen:?}");
    assert_eq!(numbers.map(|number| seen[number]).sum::<u64>(), 20_000);
}

/// Catches sums that wrap: 4,000 rows of the largest amount at 2,000, alone, matched and in two zones.
#[test]
fn the_dearest_tables_and_books() {
    let row = Row::default().with_group(31).with_kind(3);
    let row = row.with_days(36_000).with_sides(1_000_000_000, 0);
    let (short, nearer) = (row.mirrored(), row.mirrored().with_days(31));
    let books = [
        vec![row; 4_000],
        [vec![row; 2_000], vec![short; 2_000]].concat(),
        [vec![row; 2_000], vec![nearer; 2_000]].concat(),
    ];
    for (rows, per_cent) in books
        .into_iter()
        .flat_map(|rows| [0, 1, 100].map(|cent| (rows.clone(), cent)))
    {
        let mut book = Book::default();
        book.classes[0] = rows;
        let bytes = book.encode().unwrap();
        let table = Table {
            weights: [2_000; BANDS],
            vertical: per_cent,
            zones: [per_cent; 3],
            adjacent: per_cent,
            zones_1_3: per_cent,
        };
        let (table, mut random) = (table.encode(), Random::new(44));
        for (band, side) in [1, 5, 14]
            .into_iter()
            .flat_map(|band| [(band, 0), (band, 1)])
        {
            let place = [31, band, side];
            let limit = near(&mut random, &bytes, &table, place, 1_000);
            compare_least_trade(&bytes, &table, place, limit);
        }
    }
}
