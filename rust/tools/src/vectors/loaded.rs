//! Accepted tables that are not document 01's: over the books that document 01 works by hand, over
//! three zones with per cents at their ends, over books of 4,000 rows and over random books.

use super::build::{charge_by, ladder_by, only, row, Case};
use super::full;
use super::worked;
use books::damage::damage;
use books::generate::{book, Shape};
use books::names::FLOATING;
use books::tables::random::{accepted, broken, WAYS};
use books::tables::{Table, BANDS};
use books::{Random, Row};

/// How many random books there are, each under a random table.
pub const BOOKS: u64 = 40;

/// How many random tables the worked books are charged under.
pub const TABLES: u64 = 6;

/// A table of these per cents, with a weight of its own in each band.
pub fn with_per_cents(per_cents: [u8; 6]) -> Table {
    let [vertical, zone_1, zone_2, zone_3, adjacent, zones_1_3] = per_cents;
    Table {
        weights: [1, 3, 7, 11, 13, 17, 19, 23, 29, 31, 37, 41, 43, 47, 2_000],
        vertical,
        zones: [zone_1, zone_2, zone_3],
        adjacent,
        zones_1_3,
    }
}

/// The dearest table: 2,000 basis points in each band, and 100% of each match.
pub fn dearest() -> Table {
    Table {
        weights: [2_000; BANDS],
        ..with_per_cents([100; 6])
    }
}

/// A table with a field of its own in each place; the dearest; one without per cents and one
/// without weights; one whose weights are the same with their bytes turned round, and one whose
/// weights then fall.
fn fixed() -> Vec<Table> {
    let own = with_per_cents([3, 5, 11, 7, 13, 17]);
    let weights = |weights| Table { weights, ..own };
    let mut turned = [255; BANDS];
    turned[7..].fill(256);
    vec![
        own,
        dearest(),
        with_per_cents([0; 6]),
        weights([0; BANDS]),
        weights([257; BANDS]),
        weights(turned),
    ]
}

/// Random accepted tables of a seed.
fn random_tables(seed: u64) -> impl Iterator<Item = Table> {
    let number = move |number| Random::of_case(seed, 1_000 + number);
    (0..TABLES).map(move |at| accepted(&mut number(at)))
}

/// The worked books with interest rows under each table, and one with floating-rate notes.
fn worked_books(seed: u64) -> Vec<Case> {
    let notes = [
        row(7, FLOATING, 90, 2_880, 1_000),
        row(7, FLOATING, 360, 720, -50),
        row(7, 2, 2_880, 299, -100),
    ];
    let mut books = worked::interest_books();
    books.push(only(0, &notes));
    let mut cases = Vec::new();
    for table in fixed().into_iter().chain(random_tables(seed)) {
        for book in &books {
            cases.push(charge_by(&table.encode(), book));
            cases.push(ladder_by(&table.encode(), 7, book));
        }
    }
    cases
}

/// One row in each zone with every mix of sides and two orders of sizes, under per cents at
/// their ends: each step of the order is free, or all is charged from it on.
fn zones() -> Vec<Case> {
    let per_cents = [
        [0, 0, 0, 0, 0, 100],
        [0, 0, 0, 0, 100, 100],
        [0, 100, 0, 50, 100, 100],
        [0, 0, 50, 100, 100, 100],
        [100; 6],
    ];
    let rows = |sizes: [i64; 3], sides: usize| {
        let places = [(270, 11), (900, 7), (6_000, 3)];
        [0, 1, 2].map(|zone| {
            let (days, amount) = places[zone];
            let side = if sides >> zone & 1 == 0 { 1 } else { -1 };
            row(21, 1, days, 800, side * sizes[zone] * amount)
        })
    };
    let mut cases = Vec::new();
    for table in per_cents.map(|per_cents| with_per_cents(per_cents).encode()) {
        for sizes in [[1, 2, 3], [3, 1, 2]] {
            let books = (0..8).map(|sides| only(0, &rows(sizes, sides)));
            cases.extend(books.map(|book| ladder_by(&table, 21, &book)));
        }
    }
    cases
}

/// 4,000 rows of the largest amount under the dearest table: long, short, half of each in one
/// band and in two zones; and 4,000 rows of all classes.
fn full_books() -> Vec<Case> {
    let most = 1_000_000_000;
    let (far, near) = (row(31, 3, 36_000, 0, most), row(31, 3, 31, 0, most));
    let halves = |one: Row, other: Row| [vec![one; 2_000], vec![other; 2_000]].concat();
    let books = [
        vec![far; 4_000],
        vec![far.mirrored(); 4_000],
        halves(far, far.mirrored()),
        halves(far, near.mirrored()),
    ];
    let mut cases = Vec::new();
    for book in books.map(|rows| only(0, &rows)) {
        cases.push(charge_by(&dearest().encode(), &book));
        cases.push(ladder_by(&dearest().encode(), 31, &book));
    }
    for table in [dearest(), fixed()[0]] {
        cases.push(charge_by(&table.encode(), &full::mixed_book()));
        cases.push(ladder_by(&table.encode(), 7, &full::mixed_book()));
    }
    cases
}

/// Random books of a seed, each damaged one time in four, under a random table, broken one time
/// in eight.
fn random_books(seed: u64) -> Vec<Case> {
    let mut cases = Vec::new();
    for number in 0..BOOKS {
        let mut random = Random::of_case(seed, 2_000 + number);
        let shape = Shape::of_currencies(&mut random, 6);
        let mut bytes = book(&mut random, &shape).encode().expect("few rows");
        if random.once_in(4) {
            damage(&mut random, &mut bytes);
        }
        let table = match random.below(8 * WAYS as u64) as usize {
            way if way < WAYS => broken(&mut random, way),
            _ => accepted(&mut random),
        };
        let group = bytes.get(8).map_or(0, |group| u16::from(*group));
        cases.push(charge_by(&table.encode(), &bytes));
        cases.push(ladder_by(&table.encode(), group, &bytes));
    }
    cases
}

/// All of them.
pub fn cases(seed: u64) -> Vec<Case> {
    [
        worked_books(seed),
        zones(),
        full_books(),
        random_books(seed),
    ]
    .concat()
}

#[cfg(test)]
mod tests {
    use super::super::answers::lines;
    use super::*;
    use std::collections::BTreeSet;

    /// The figures of one call.
    fn figures(case: &Case) -> Vec<u64> {
        let line = lines(std::slice::from_ref(case));
        let figures = line.split_whitespace().skip(1);
        figures.map(|figure| figure.parse().unwrap()).collect()
    }

    /// Catches a table that gives the figures of document 01's, and two that give the same, over
    /// the worked books.
    #[test]
    fn every_table_gives_figures_of_its_own() {
        let stored = worked_books(1);
        let books = worked::interest_books().len() + 1;
        let tables = stored.chunks(2 * books);
        let all: BTreeSet<Vec<Vec<u64>>> = tables
            .map(|calls| calls.iter().map(figures).collect())
            .collect();
        assert_eq!(all.len(), fixed().len() + TABLES as usize);
        let amendment = second::table();
        for calls in stored.chunks(2 * books) {
            let same = |case: &&Case| figures(case) == figures(&charge_by(&amendment, &case.book));
            assert!(calls.iter().step_by(2).filter(same).count() < 2);
        }
    }

    /// 75 at 11, 30 at 17 and 10 at 41: 825 against 510 leave 315 and 410; nothing else matches.
    #[test]
    fn a_worked_book_by_hand() {
        let e3 = &worked::interest_books()[1];
        let ladder = figures(&ladder_by(&fixed()[0].encode(), 7, e3));
        assert_eq!(
            ladder[3..],
            [1_745, 0, 0, 0, 0, 510, 0, 0, 725, 13 * 510 + 72_500]
        );
    }

    /// Catches sums that are stored wrapped: a fifth of 4,000,000,000,000 in mils, and what is
    /// matched at 100%.
    #[test]
    fn the_dearest_books_are_stored() {
        let charges: Vec<Vec<u64>> = full_books().iter().step_by(2).map(figures).collect();
        let generals = charges.iter().take(4).map(|figures| figures[4]);
        let (whole, half) = (800_000_000_000_000_000, 400_000_000_000_000_000);
        assert!(generals.eq([whole, whole, half, half]));
        assert!(charges.iter().all(|figures| figures[10] == 4_000));
    }

    /// Catches random books that are all refused, or none for the table.
    #[test]
    fn random_books_are_accepted_and_refused() {
        let numbers: Vec<u64> = random_books(1)
            .iter()
            .map(|case| figures(case)[0])
            .collect();
        let count = |wanted: fn(&u64) -> bool| numbers.iter().filter(|one| wanted(one)).count();
        assert!(count(|number| *number == 0) > 40);
        assert!(count(|number| *number == 19) > 2);
        assert!(count(|number| (1..16).contains(number)) > 2);
    }
}
