//! Document 01's E4 under any table: two books that cost more when joined.

use books::names::FLOATING;
use books::{Book, Random, Row};

/// The days of document 01's E4, one in each zone, and the bands that they lie in.
const E4_DAYS: [u16; 3] = [270, 900, 6000];
const E4_BANDS: [usize; 3] = [3, 5, 11];

/// The rows of its two books, by their days: a long one and a short one each. They use zones 1
/// and 2, and 2 and 3. Joined, with equal weighted positions, they cost more.
const E4: [[usize; 2]; 2] = [[0, 1], [1, 2]];

/// The greatest common divisor of two numbers, of which one is not zero.
fn divisor(one: u32, other: u32) -> u32 {
    match other {
        0 => one,
        _ => divisor(other, one % other),
    }
}

/// The amounts of E4: five times the least whose weighted positions are equal. They are 75, 30
/// and 10 under document 01's table, and where a table has none.
fn e4_amounts(table: &[u8]) -> [u32; 3] {
    let weights = second::read_table(table).map_or([0; 15], |table| table.weights);
    let [one, two, three] = E4_BANDS.map(|band| weights[band] as u32);
    if one == 0 {
        return [75, 30, 10];
    }
    let amounts = [two * three, one * three, one * two];
    let common = amounts.into_iter().fold(0, divisor);
    amounts.map(|amount| 5 * (amount / common))
}

/// Puts E4's rows, up to three times as large, into two books. That of zone 1 is every second
/// time a floating-rate note, 800 days to final maturity.
pub fn add_e4(random: &mut Random, books: &mut [Book; 2], table: &[u8]) {
    let (group, amounts) = (random.below(32) as u8, e4_amounts(table));
    let row = Row::default().with_group(group).with_coupon(800);
    for (book, [long, short]) in books.iter_mut().zip(E4) {
        let times = 1 + random.below(3) as u32;
        let kinds = [random.pick(&[1, FLOATING]), 1, 1];
        let bond = |zone: usize| row.with_kind(kinds[zone]).with_days(E4_DAYS[zone]);
        book.classes[0].extend([
            bond(long).with_sides(times * amounts[long], 0),
            bond(short).with_sides(0, times * amounts[short]),
        ]);
    }
}

/// The issue of E4's middle rows, which is no other of the books that they are put into.
const ISSUE: u16 = 9_000;

/// The same with its two rows of 900 days as one issue: netted, the joined book has none of them.
pub fn add_e4_issue(random: &mut Random, books: &mut [Book; 2], table: &[u8]) {
    add_e4(random, books, table);
    for book in books {
        let middle = |row: &&mut Row| row.days == E4_DAYS[1];
        let last = book.classes[0].iter_mut().rev().take(2);
        last.filter(middle).for_each(|row| row.issue = ISSUE);
    }
}

#[cfg(test)]
mod tests {
    use super::*;
    use books::tables::random::accepted;

    /// Catches a middle row without its number, or another row with it.
    #[test]
    fn the_middle_rows_are_one_issue() {
        for case in 0..20 {
            let mut books = [Book::default(), Book::default()];
            add_e4_issue(&mut Random::of_case(10, case), &mut books, &second::table());
            let issues = books.map(|book| [0, 1].map(|at| book.classes[0][at].issue));
            assert_eq!(issues, [[0, ISSUE], [ISSUE, 0]]);
        }
    }

    /// Catches positions that are not equal, and other amounts than document 01's own.
    #[test]
    fn e4_has_equal_positions_under_each_table() {
        assert_eq!(e4_amounts(&second::table()), [75, 30, 10]);
        assert_eq!(e4_amounts(&[0; 36]), [75, 30, 10]);
        assert_eq!(e4_amounts(&[0; 35]), [75, 30, 10]);
        for case in 0..200 {
            let table = accepted(&mut Random::of_case(9, case));
            let amounts = e4_amounts(&table.encode());
            let weight = |zone: usize| u32::from(table.weights[E4_BANDS[zone]]);
            let positions = [0, 1, 2].map(|zone| amounts[zone] * weight(zone));
            assert!(weight(0) == 0 || positions == [positions[0]; 3]);
            assert!(amounts
                .iter()
                .all(|amount| (5..=20_000_000).contains(amount)));
        }
    }
}
