//! Random books that are accepted and favour the edges.

use crate::names::FLOATING;
use crate::{Book, Random, Row, CLASSES};

/// The groups of a class.
const GROUPS: usize = 32;

/// The last days of all bands of all ladders, and the ends of the range.
const EDGE_DAYS: [u16; 26] = [
    0, 1, 30, 90, 180, 360, 684, 720, 1008, 1080, 1296, 1440, 1548, 1800, 2052, 2520, 2628, 3348,
    3600, 3816, 4320, 5400, 7200, 35_999, 36_000, 36_000,
];

/// What a random book is drawn from.
#[derive(Clone, Debug)]
pub struct Shape {
    /// How many rows the book has.
    pub rows: usize,
    /// The groups that its rows are in.
    pub groups: Vec<u8>,
    /// For each group an interest zone, 1 to 3, that none of its rows lies in.
    pub without: [Option<u8>; GROUPS],
}

/// No zone, or one of the three.
fn left_out(random: &mut Random) -> Option<u8> {
    [None, Some(1), Some(2), Some(3)][random.below(4) as usize]
}

impl Shape {
    /// A shape with few groups or all of them, and often one zone left out in all.
    pub fn new(random: &mut Random, rows: usize) -> Shape {
        let groups = match random.below(4) {
            0 => (0..32).collect(),
            1 => vec![0, 31],
            _ => (0..=random.below(2))
                .map(|_| random.below(32) as u8)
                .collect(),
        };
        Shape {
            rows,
            groups,
            without: [left_out(random); GROUPS],
        }
    }

    /// A shape with two to four groups, often the first and the last, each with a zone of its
    /// own left out or none.
    pub fn of_currencies(random: &mut Random, rows: usize) -> Shape {
        let group = |random: &mut Random| match random.once_in(4) {
            true => random.pick(&[0, 31]),
            false => random.below(32) as u8,
        };
        Shape {
            rows,
            groups: (0..2 + random.below(3)).map(|_| group(random)).collect(),
            without: [(); GROUPS].map(|()| left_out(random)),
        }
    }

    /// A shape with one group, and no zone left out.
    pub fn of_one_group(random: &mut Random, rows: usize) -> Shape {
        Shape {
            rows,
            groups: vec![random.below(32) as u8],
            without: [None; GROUPS],
        }
    }
}

/// The zone of an interest row.
fn zone(days: u16, coupon: u16) -> u8 {
    let end_of_2 = if coupon >= 300 { 1440 } else { 1296 };
    match days {
        ..=360 => 1,
        _ if days <= end_of_2 => 2,
        _ => 3,
    }
}

/// Days from 0 to 36,000, mostly at a band's end or one day off it.
fn days(random: &mut Random) -> u16 {
    match random.below(8) {
        0 => random.below(36_001) as u16,
        1 => random.below(7_300) as u16,
        _ => {
            let near = i32::from(random.pick(&EDGE_DAYS)) + random.below(3) as i32 - 1;
            near.clamp(0, 36_000) as u16
        }
    }
}

/// A coupon from 0 to 10,000, mostly next to 300.
fn coupon(random: &mut Random) -> u16 {
    match random.below(4) {
        0 => random.below(10_001) as u16,
        _ => random.pick(&[0, 299, 300, 301, 800, 10_000]),
    }
}

/// Days to fixing from 0 to 360, mostly at a band's end or one day off it.
fn fixing(random: &mut Random) -> u16 {
    match random.below(4) {
        0 => random.below(361) as u16,
        _ => random.pick(&[0, 1, 30, 31, 90, 91, 180, 181, 359, 360]),
    }
}

/// A final maturity from the days to fixing to 36,000, mostly next to the fixing or to an end of
/// the specific weights, a coupon's column or limit, or the range.
fn maturity(random: &mut Random, fixing: u16) -> u16 {
    let edges = [
        180, 181, 299, 300, 720, 721, 2_880, 10_000, 10_001, 35_999, 36_000,
    ];
    let any = match random.below(4) {
        0 => random.below(36_001) as u16,
        1 => fixing + random.below(2) as u16,
        _ => random.pick(&edges),
    };
    any.max(fixing)
}

/// Whether the next interest row is a floating-rate note: one in four, where zone 1 is not left
/// out.
fn is_note(random: &mut Random, without: Option<u8>) -> bool {
    without != Some(1) && random.once_in(4)
}

/// A row as a floating-rate note.
fn note(random: &mut Random, row: Row) -> Row {
    let fixing = fixing(random);
    let maturity = maturity(random, fixing);
    row.with_kind(FLOATING)
        .with_days(fixing)
        .with_coupon(maturity)
}

/// A row as a bond of a fixed rate, of one of the first three kinds.
fn bond(random: &mut Random, row: Row, without: Option<u8>) -> Row {
    let row = row.with_kind(1 + random.below(3) as u8);
    let mut bond = row.with_coupon(coupon(random)).with_days(days(random));
    while Some(zone(bond.days, bond.coupon)) == without {
        bond.days = days(random);
    }
    bond
}

/// An amount from 1 to 1,000,000,000.
fn amount(random: &mut Random) -> u32 {
    match random.below(8) {
        0 => random.pick(&[1, 2, 999_999_999, 1_000_000_000]),
        1 => 1 + random.below(1_000_000_000) as u32,
        2 => random.pick(&[10, 20, 40, 70, 125, 175, 225, 275]),
        _ => 1 + random.below(100) as u32,
    }
}

/// A row that its class accepts.
pub fn row(random: &mut Random, class: usize, shape: &Shape) -> Row {
    let row = Row {
        group: random.pick(&shape.groups),
        issue: random.draw() as u16,
        ..Row::default()
    };
    let without = shape.without[usize::from(row.group)];
    let mut row = match class {
        0 if is_note(random, without) => note(random, row),
        0 => bond(random, row, without),
        1 => row.with_kind(1 + random.below(3) as u8),
        3 => row.with_days(days(random)),
        _ => row,
    };
    match random.once_in(2) {
        true => row.long = amount(random),
        false => row.short = amount(random),
    }
    row
}

/// An accepted book of a shape.
pub fn book(random: &mut Random, shape: &Shape) -> Book {
    let only = random.below(2 * CLASSES as u64) as usize;
    let mut book = Book::default();
    for _ in 0..shape.rows {
        let class = match only < CLASSES {
            true => only,
            false => random.below(CLASSES as u64) as usize,
        };
        book.classes[class].push(row(random, class, shape));
    }
    book
}

/// An accepted book of a shape, with interest rows alone.
pub fn interest_rows(random: &mut Random, shape: &Shape) -> Book {
    let mut book = Book::default();
    book.classes[0] = (0..shape.rows).map(|_| row(random, 0, shape)).collect();
    book
}

/// An accepted book of a shape, with few rows that are not interest rows.
pub fn interest_book(random: &mut Random, shape: &Shape) -> Book {
    let mut book = Book::default();
    for _ in 0..shape.rows {
        let class = match random.once_in(8) {
            true => random.below(CLASSES as u64) as usize,
            false => 0,
        };
        book.classes[class].push(row(random, class, shape));
    }
    book
}

/// An accepted book of a shape, of the two classes that have ladders.
pub fn ladder_book(random: &mut Random, shape: &Shape) -> Book {
    let mut book = Book::default();
    for _ in 0..shape.rows {
        let class = random.pick(&[0, 3]);
        book.classes[class].push(row(random, class, shape));
    }
    book
}

#[cfg(test)]
mod tests {
    use super::*;

    #[test]
    fn a_zone_left_out_holds_no_row() {
        let mut random = Random::new(5);
        for without in 1..=3 {
            let shape = Shape {
                rows: 0,
                groups: vec![4],
                without: [Some(without); GROUPS],
            };
            for _ in 0..500 {
                let row = row(&mut random, 0, &shape);
                assert_ne!(zone(row.days, row.coupon), without);
            }
        }
    }

    /// Catches notes that are never made, that would be refused, or that miss an end of their
    /// fields.
    #[test]
    fn one_interest_row_in_four_is_a_floating_rate_note() {
        let mut random = Random::new(7);
        let shape = Shape {
            rows: 0,
            groups: vec![4],
            without: [None; GROUPS],
        };
        let rows: Vec<Row> = (0..8_000).map(|_| row(&mut random, 0, &shape)).collect();
        let notes: Vec<&Row> = rows.iter().filter(|row| row.kind == FLOATING).collect();
        assert!((1_700..2_300).contains(&notes.len()), "{}", notes.len());
        for note in &notes {
            assert!(note.days <= 360 && (note.days..=36_000).contains(&note.coupon));
        }
        for fixing in [0, 30, 31, 90, 91, 180, 181, 360] {
            assert!(notes.iter().any(|note| note.days == fixing), "{fixing}");
        }
        for maturity in [0, 180, 181, 720, 721, 10_000, 10_001, 36_000] {
            assert!(notes.iter().any(|note| note.coupon == maturity));
        }
        assert!(notes.iter().any(|note| note.coupon == note.days));
        let others = rows.iter().filter(|row| row.kind != FLOATING);
        assert!(others.clone().all(|row| (1..=3).contains(&row.kind)));
        assert!(others.clone().all(|row| row.coupon <= 10_000));
    }

    /// Catches currencies that all leave the same zone out, or never use three beside others
    /// that do not.
    #[test]
    fn each_currency_has_its_own_zones() {
        let (mut apart, mut mixed) = (false, false);
        for case in 0..50 {
            let mut random = Random::of_case(6, case);
            let shape = Shape::of_currencies(&mut random, 60);
            assert!((2..=4).contains(&shape.groups.len()));
            let book = interest_book(&mut random, &shape);
            assert!(book.classes[0].len() > 30);
            let zones = |group: u8| {
                let own = book.classes[0].iter().filter(|row| row.group == group);
                let used: Vec<u8> = own.map(|row| zone(row.days, row.coupon)).collect();
                [1, 2, 3].map(|zone| used.contains(&zone))
            };
            let without = |group: &u8| shape.without[usize::from(*group)];
            for group in &shape.groups {
                let used = zones(*group);
                assert!(without(group).is_none_or(|zone| !used[usize::from(zone) - 1]));
                apart |= without(group) != without(&shape.groups[0]);
            }
            let three = |group: &u8| zones(*group) == [true; 3];
            mixed |= shape.groups.iter().any(three) && !shape.groups.iter().all(three);
        }
        assert!(apart && mixed);
    }

    /// Catches ladders that leave a zone or a side out, and rows of other classes or groups.
    #[test]
    fn ladder_books_are_of_one_group_in_all_zones() {
        for case in 0..20 {
            let mut random = Random::of_case(8, case);
            let shape = Shape::of_one_group(&mut random, 400);
            let book = ladder_book(&mut random, &shape);
            let [interest, equity, exchange, commodity] = &book.classes;
            assert!(interest.len() > 100 && commodity.len() > 100);
            assert!(equity.is_empty() && exchange.is_empty());
            let mut rows = book.classes.iter().flatten();
            assert!(rows.all(|row| shape.groups == [row.group]));
            for wanted in 1..=3 {
                let inside = |row: &&Row| zone(row.days, row.coupon) == wanted;
                let inside = interest.iter().filter(inside);
                assert!(inside.clone().any(|row| row.long > 0));
                assert!(inside.clone().any(|row| row.short > 0));
            }
        }
    }

    #[test]
    fn a_seed_gives_one_book() {
        let make = |seed| {
            let mut random = Random::new(seed);
            let shape = Shape::new(&mut random, 20);
            book(&mut random, &shape)
        };
        assert_eq!(make(7), make(7));
        assert_ne!(make(7), make(8));
        assert_eq!(make(9).rows(), 20);
    }
}
