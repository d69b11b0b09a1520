//! Small banks: the books that document 01 works by hand, days, commodities and currencies, books
//! of 4,000 rows, and random books with their joins.

use super::build::{book, only, row, small_bank, Case};
use super::{full, worked};
use books::damage::damage;
use books::generate::Shape;
use books::small::{slip_in, small_book};
use books::{Book, Random, Row};

/// How many pairs of random books there are.
pub const PAIRS: u64 = 20;

/// A book of foreign exchange and commodity rows.
fn small(exchange: &[Row], commodity: &[Row]) -> Vec<u8> {
    book([&[], &[], exchange, commodity])
}

/// The worked books, E5 and E6 in one, and the largest amounts.
fn worked_books() -> Vec<Vec<u8>> {
    let mut books = worked::examples();
    let rows = |at: usize, class: usize| {
        let book = Book::decode(&books[at]).expect("a worked book");
        book.classes[class].clone()
    };
    books.push(small(&rows(6, 2), &rows(5, 3)));
    let most = 1_000_000_000;
    for class in [2, 3] {
        books.extend([most, -most].map(|net| only(class, &[row(9, 0, 0, 0, net)])));
    }
    books
}

/// One commodity, long 10 at some days and short 3 at others: no sum looks at the days.
fn days() -> Vec<Vec<u8>> {
    let ends = [
        0, 30, 31, 90, 91, 180, 181, 360, 361, 720, 721, 1080, 1081, 36_000,
    ];
    let pairs = ends.iter().zip(ends.iter().cycle().skip(3));
    let both =
        |(one, other): (&u16, &u16)| only(3, &[row(12, 0, *one, 0, 10), row(12, 0, *other, 0, -3)]);
    pairs.map(both).collect()
}

/// Every mix of sides of rows of three groups, the first, one between and the last.
fn sides() -> Vec<Vec<u8>> {
    let mix = |class: usize, sides: usize| {
        let amounts = [(0, 7), (12, 11), (31, 13)];
        let rows = [0, 1, 2].map(|at| {
            let (group, amount) = amounts[at];
            let side = if sides >> at & 1 == 0 { 1 } else { -1 };
            row(group, 0, 0, 0, side * amount)
        });
        only(class, &rows)
    };
    let of_class = |class| (0..8).map(move |sides| mix(class, sides));
    of_class(2).chain(of_class(3)).collect()
}

/// Nets that are nothing: in one group, and of two groups together.
fn nothing() -> Vec<Vec<u8>> {
    let pair = |one: u8, other: u8| [row(one, 0, 0, 0, 5), row(other, 0, 0, 0, -5)];
    let groups = [(0, 0), (0, 1), (1, 1), (1, 2), (30, 31), (31, 31)];
    let of_class = |class: usize| groups.map(|(one, other)| only(class, &pair(one, other)));
    [of_class(2), of_class(3)].concat()
}

/// A row in each of the 32 groups of either class, with sides that change.
fn all_groups() -> Vec<u8> {
    let rows = |days: u16| -> Vec<Row> {
        let net = |group: i64| (3 + group) * if group % 3 == 0 { -1 } else { 1 };
        let row = |group: u8| row(group, 0, days * u16::from(group), 0, net(group.into()));
        (0..32).map(row).collect()
    };
    small(&rows(0), &rows(1_000))
}

/// Books of 4,000 rows: of either class, of both, and the dearest.
fn full_books() -> Vec<Vec<u8>> {
    let far = row(31, 0, 36_000, 0, 1_000_000_000);
    let halves = [vec![far; 2_000], vec![far.mirrored(); 2_000]].concat();
    let mut last = full::runs(3, 2_000);
    last[1_999].days = 36_001;
    vec![
        only(2, &full::runs(2, 4_000)),
        only(3, &full::runs(3, 4_000)),
        small(&full::runs(2, 2_000), &full::runs(3, 2_000)),
        small(&full::runs(2, 2_000), &last),
        only(2, &vec![far.with_days(0); 4_000]),
        only(3, &vec![far; 4_000]),
        only(3, &vec![far.mirrored(); 4_000]),
        only(3, &halves),
        full::mixed_book(),
    ]
}

/// A random book, damaged one time in four and with a row of interest or equity one time in six.
fn random_book(random: &mut Random, shape: &Shape) -> Vec<u8> {
    let mut book = small_book(random, shape);
    if random.once_in(6) {
        slip_in(random, &mut book, shape);
    }
    let mut bytes = book.encode().expect("few rows");
    if random.once_in(4) {
        damage(random, &mut bytes);
    }
    bytes
}

/// Pairs of random books of a seed, each with the joined book where there is one.
fn pairs(seed: u64) -> Vec<Vec<u8>> {
    let mut books = Vec::new();
    for number in 0..PAIRS {
        let mut random = Random::of_case(seed, 3_000 + number);
        let rows = 1 + random.below(8) as usize;
        let shape = Shape::new(&mut random, rows);
        let [a, b] = [(); 2].map(|()| random_book(&mut random, &shape));
        let mut joined = vec![0; (a.len() + b.len()).saturating_sub(8)];
        let made = second::join(&a, &b, &mut joined).refusal.accepted();
        books.extend([a, b]);
        books.extend(made.then_some(joined));
    }
    books
}

/// All of them.
pub fn cases(seed: u64) -> Vec<Case> {
    let books = [
        worked_books(),
        days(),
        sides(),
        nothing(),
        vec![all_groups()],
        full_books(),
        pairs(seed),
    ];
    books.concat().iter().map(|book| small_bank(book)).collect()
}

#[cfg(test)]
mod tests {
    use super::super::answers::lines;
    use super::*;

    /// The lines of some books.
    fn figures(books: &[Vec<u8>]) -> Vec<String> {
        let cases: Vec<Case> = books.iter().map(|book| small_bank(book)).collect();
        lines(&cases).lines().map(String::from).collect()
    }

    /// E5's 200 net and 3,000 gross, and E6.
    #[test]
    fn the_worked_books_by_hand() {
        let lines = figures(&worked_books());
        assert_eq!(lines[0], "small-bank 20 0 0 0 0 0");
        assert_eq!(lines[1], "small-bank 0 0 0 0 0 0");
        assert_eq!(lines[2], lines[0]);
        assert_eq!(lines[5], "small-bank 0 0 0 0 120000000 120000000");
        assert_eq!(lines[6], "small-bank 0 0 0 26800000 0 26800000");
        assert_eq!(lines[7], "small-bank 0 0 0 26800000 120000000 146800000");
    }

    /// Catches days that are all of one band, or that change a figure.
    #[test]
    fn days_change_nothing() {
        let lines = figures(&days());
        let charge = 7 * 150_000 + 13 * 30_000;
        let expected = format!("small-bank 0 0 0 0 {charge} {charge}");
        assert!(lines.iter().all(|line| *line == expected));
    }

    /// Catches sums that are stored wrapped: 18% of 4,000,000,000,000 in mils, and 3% of it.
    #[test]
    fn the_dearest_books_are_stored() {
        let lines = figures(&full_books());
        let dearest = "small-bank 0 0 0 0 720000000000000000 720000000000000000";
        assert_eq!([&lines[5][..], &lines[6]], [dearest; 2]);
        assert!(lines[7].ends_with(" 120000000000000000"));
        assert!(lines[3].starts_with("small-bank 6 3999 0 0 0 0"));
        assert!(lines[8].starts_with("small-bank 20 0 0 0 0 0"));
    }

    /// Catches random books that are all refused or none, or not joined.
    #[test]
    fn random_books_are_charged_and_refused() {
        let lines = figures(&pairs(1));
        let count = |start: &str| lines.iter().filter(|line| line.starts_with(start)).count();
        let (accepted, other) = (count("small-bank 0 "), count("small-bank 20 "));
        assert!(accepted > 20 && other > 4, "{accepted} {other}");
        assert!(lines.len() > accepted + other + 2);
        assert!(lines.len() > 2 * PAIRS as usize + 8);
    }
}
