//! The books that offsetting is timed on: swap legs of which all pair off, or none does.

use super::cases::{count, Case, Whose};
use books::legs::LEG;
use books::{Book, Random, Row};

/// How many rows a leg and its other leg lie within.
const NEAR: usize = 8;

/// A leg with an amount, on either side, in any currency and at any days and coupon.
pub fn leg(random: &mut Random, amount: u32) -> Row {
    let leg = Row {
        group: random.below(32) as u8,
        kind: LEG,
        days: random.below(36_001) as u16,
        coupon: random.below(10_001) as u16,
        ..Row::default()
    };
    match random.once_in(2) {
        true => leg.with_sides(amount, 0),
        false => leg.with_sides(0, amount),
    }
}

/// So many amounts, each once and in any order.
fn amounts(random: &mut Random, count: usize) -> Vec<u32> {
    let mut amounts: Vec<u32> = (1..=count as u32).collect();
    random.shuffle(&mut amounts);
    amounts
}

/// Legs that all pair off, each with one of the next few rows or of the few before.
fn near_pairs(random: &mut Random, rows: usize) -> Vec<Row> {
    let amounts = amounts(random, rows / 2).into_iter();
    let pairs = amounts.map(|amount| leg(random, amount));
    let mut legs: Vec<Row> = pairs.flat_map(|leg| [leg, leg.mirrored()]).collect();
    legs.chunks_mut(NEAR).for_each(|near| random.shuffle(near));
    legs
}

/// Legs of different amounts.
pub fn amounts_apart(random: &mut Random, rows: usize) -> Vec<Row> {
    let amounts = amounts(random, rows).into_iter();
    amounts.map(|amount| leg(random, amount)).collect()
}

/// Long legs of one currency, amount, coupon and day.
fn one_side(random: &mut Random, rows: usize) -> Vec<Row> {
    let leg = leg(random, 5).with_sides(5, 0);
    vec![leg; rows]
}

/// Legs of one currency and amount on both sides whose coupons are 16 apart, or more, or whose days
/// are 31 apart, or more.
fn terms_apart(random: &mut Random, rows: usize) -> Vec<Row> {
    let terms = |at: usize| (16 * (at % 600), 361 + 31 * (at / 600));
    let mut legs: Vec<Row> = (0..rows)
        .map(|at| {
            let (coupon, days) = terms(at);
            let leg = leg(random, 5).with_group(7);
            leg.with_coupon(coupon as u16).with_days(days as u16)
        })
        .collect();
    random.shuffle(&mut legs);
    legs
}

/// How the rows of a sort are made.
type Legs = fn(&mut Random, usize) -> Vec<Row>;

/// The sorts: their names, their rows and these.
const SORTS: [(&str, usize, Legs); 6] = [
    ("no rows", 0, near_pairs),
    ("near pairs", 40, near_pairs),
    ("near pairs", 4_000, near_pairs),
    ("amounts apart", 4_000, amounts_apart),
    ("one side", 4_000, one_side),
    ("terms apart", 4_000, terms_apart),
];

/// The books of a sort.
fn books(number: u64, rows: usize, legs: Legs) -> Vec<Vec<u8>> {
    let book = |seed: u64| {
        let mut random = Random::of_case(20_000 + number, seed);
        let mut book = Book::default();
        book.classes[0] = legs(&mut random, rows);
        book.encode().expect("at most 4,000 rows")
    };
    (0..count(rows)).map(book).collect()
}

/// All cases; no call on pairs of books is timed on them.
pub fn cases() -> impl Iterator<Item = Case> {
    (0..).zip(SORTS).map(|(number, (name, rows, legs))| Case {
        name,
        rows,
        books: books(number, rows, legs),
        pairs: [vec![], vec![]],
        table: second::table().to_vec(),
        whose: Whose::Offset,
    })
}

#[cfg(test)]
mod tests {
    use super::*;

    /// Catches legs that pair off where none should, and pairs that lie far apart or do not.
    #[test]
    fn all_legs_pair_off_or_none_does() {
        for case in cases() {
            for bytes in &case.books {
                let left = second::offset_book(bytes).unwrap();
                let pairs = ["no rows", "near pairs"].contains(&case.name);
                let rows = if pairs { 0 } else { case.rows };
                assert_eq!(left.len(), 8 + 16 * rows, "{}", case.name);
                let whole = Book::decode(bytes).unwrap();
                assert_eq!(whole.classes[0].len(), case.rows);
                assert!(whole.classes[0].iter().all(|row| row.kind == LEG));
            }
        }
        let mut random = Random::new(1);
        let legs = near_pairs(&mut random, 4_000);
        for (at, leg) in legs.iter().enumerate() {
            let start = at - at % NEAR;
            assert!(legs[start..start + NEAR].contains(&leg.mirrored()));
        }
    }

    /// Catches a line whose amounts are not those that it names, or that are all on one side.
    #[test]
    fn amounts_are_all_different_or_all_equal() {
        for case in cases().filter(|case| case.rows == 4_000) {
            let rows = &Book::decode(&case.books[0]).unwrap().classes[0];
            let mut amounts: Vec<u32> = rows.iter().map(|row| row.long + row.short).collect();
            amounts.sort_unstable();
            amounts.dedup();
            let expected = match case.name {
                "near pairs" => 2_000,
                "amounts apart" => 4_000,
                _ => 1,
            };
            assert_eq!(amounts.len(), expected, "{}", case.name);
            let longs = rows.iter().filter(|row| row.long > 0).count();
            let both = (1_000..3_000).contains(&longs);
            assert_eq!(both, case.name != "one side", "{longs}");
        }
    }

    #[test]
    fn the_numbers_of_books_are_powers_of_two() {
        assert!(cases().all(|case| case.books.len().is_power_of_two()));
    }
}
