//! Random books in which rows share issue numbers, and rows of an issue that do not belong to it.

use crate::generate::{row, Shape};
use crate::names::{floating, kinds};
use crate::{Book, Random, Row, CLASSES};

/// Numbers that differ in one byte, in both, and at the ends; 0 is no issue.
const NUMBERS: [u16; 8] = [0, 1, 2, 255, 256, 257, 511, 65_535];

/// How large the amounts of a book are.
#[derive(Clone, Copy, PartialEq)]
enum Amounts {
    /// A few units, which often net to zero.
    Small,
    /// Two or three of them pass the limit of a row; what has passed it mostly comes back.
    Large,
    /// Longs alone, of which four or five pass 32 bits.
    Steep,
}

const LARGE: [u32; 6] = [1, 2, 500_000_000, 500_000_001, 999_999_999, 1_000_000_000];
const STEEP: [u32; 4] = [1_000_000_000, 1_000_000_000, 1_000_000_000, 294_967_296];

impl Amounts {
    /// An amount, and whether it is long, beside rows with this net.
    fn next(self, random: &mut Random, net: i64) -> (u32, bool) {
        let back = net.unsigned_abs() >= 1_000_000_000 && !random.once_in(3);
        match self {
            Amounts::Small => (1 + random.below(4) as u32, random.once_in(2)),
            Amounts::Large if back => (random.pick(&LARGE), net < 0),
            Amounts::Large => (random.pick(&LARGE), random.once_in(2)),
            Amounts::Steep => (random.pick(&STEEP), true),
        }
    }
}

/// The classes.
const ALL: [usize; CLASSES] = [0, 1, 2, 3];

/// What rows are drawn from: in each class one row for each of some numbers.
pub struct Issues {
    models: [Vec<Row>; CLASSES],
}

impl Issues {
    /// One to four numbers, the same in all classes.
    pub fn new(random: &mut Random, shape: &Shape) -> Issues {
        let mut numbers = NUMBERS;
        random.shuffle(&mut numbers);
        let count = 1 + random.below(4) as usize;
        let models = ALL.map(|class| {
            let numbered = numbers[..count].iter();
            let model = |issue: &u16| row(random, class, shape).with_issue(*issue);
            numbered.map(model).collect()
        });
        Issues { models }
    }

    /// One more row of an issue of a class.
    fn row(&self, random: &mut Random, class: usize, before: &[Row], amounts: Amounts) -> Row {
        let models = &self.models[class];
        // Large amounts are of one number, so that they meet.
        let model = match amounts {
            Amounts::Small => random.pick(models),
            _ => models[0],
        };
        let own = before.iter().filter(|row| row.issue == model.issue);
        let net = own
            .map(|row| i64::from(row.long) - i64::from(row.short))
            .sum();
        match amounts.next(random, net) {
            (amount, true) => model.with_sides(amount, 0),
            (amount, false) => model.with_sides(0, amount),
        }
    }

    /// An accepted book of so many rows, every second of all classes and every fourth of interest
    /// alone; one in three has large amounts, one in twelve longs that are larger.
    pub fn book(&self, random: &mut Random, rows: usize) -> Book {
        let classes = random.pick(&[&ALL[..], &ALL, &ALL, &ALL, &[0], &[0], &[0, 1], &[2, 3]]);
        let amounts = match random.below(12) {
            0..=6 => Amounts::Small,
            7..=10 => Amounts::Large,
            _ => Amounts::Steep,
        };
        let mut book = Book::default();
        for _ in 0..rows {
            let class = random.pick(classes);
            let row = self.row(random, class, &book.classes[class], amounts);
            book.classes[class].push(row);
        }
        book
    }
}

/// An accepted book that can be netted, of so many rows in one class or in all: most have a number
/// of their own, the others are like a row before them.
pub fn many(random: &mut Random, shape: &Shape, rows: usize) -> Book {
    let mut numbers: Vec<u16> = (1..=u16::MAX).collect();
    random.shuffle(&mut numbers);
    let classes = random.pick(&[&ALL[..], &[0], &[1], &[2], &[3]]);
    let mut book = Book::default();
    for number in numbers.into_iter().take(rows) {
        let class = random.pick(classes);
        let before = &book.classes[class];
        let row = match before.is_empty() || !random.once_in(6) {
            true => row(random, class, shape).with_issue(number),
            false => random.pick(before),
        };
        let amount = 1 + random.below(9) as u32;
        book.classes[class].push(row.with_sides(amount, 0));
    }
    book
}

/// A number next to another, within a range that has more than one.
fn beside(random: &mut Random, value: u16, least: u16, most: u16) -> u16 {
    let up = value == least || (value < most && random.once_in(2));
    match up {
        true => value + 1,
        false => value - 1,
    }
}

/// The row with another kind of its class, which is no floating-rate note's.
fn of_another_kind(random: &mut Random, class: usize, row: Row) -> Row {
    let known = kinds(class).iter().map(|(kind, _)| *kind);
    let others: Vec<u8> = known
        .filter(|kind| *kind != row.kind && !floating(class, *kind))
        .collect();
    row.with_kind(random.pick(&others))
}

/// The row with other days or another final maturity, if it has room for them: those of a
/// floating-rate note keep their order.
fn of_other_terms(random: &mut Random, class: usize, row: Row) -> Vec<Row> {
    match (class, floating(class, row.kind)) {
        (0, true) => {
            let maturity = beside(random, row.coupon, row.days, 36_000);
            let mut rows = vec![row.with_coupon(maturity); 3];
            if row.coupon > 0 {
                rows.push(row.with_days(beside(random, row.days, 0, row.coupon.min(360))));
            }
            rows
        }
        (0, false) => vec![
            row.with_days(beside(random, row.days, 0, 36_000)),
            row.with_coupon(beside(random, row.coupon, 0, 10_000)),
        ],
        (3, _) => vec![row.with_days(beside(random, row.days, 0, 36_000))],
        _ => vec![],
    }
}

/// An accepted row with one of group, kind, days and coupon changed, and accepted still.
pub fn unlike(random: &mut Random, class: usize, row: Row) -> Row {
    let mut rows = vec![row.with_group((row.group + 1) % 32)];
    rows.extend(of_other_terms(random, class, row));
    // A final maturity may be too much for the coupon of a bond.
    if class < 2 && row.coupon <= 10_000 {
        rows.push(of_another_kind(random, class, row));
    }
    random.pick(&rows)
}

/// The places of rows whose number has come before in their class, or else of all.
fn later(rows: &[Row]) -> Vec<usize> {
    let numbered = |at: &usize| {
        let row = rows[*at];
        row.issue != 0 && rows[..*at].iter().any(|before| before.issue == row.issue)
    };
    let later: Vec<usize> = (0..rows.len()).filter(numbered).collect();
    match later.is_empty() {
        true => (0..rows.len()).collect(),
        false => later,
    }
}

/// Makes a row unlike the others of its issue, if the book has rows.
pub fn spoil(random: &mut Random, book: &mut Book) {
    let used: Vec<usize> = (0..CLASSES)
        .filter(|class| !book.classes[*class].is_empty())
        .collect();
    if !used.is_empty() {
        let class = random.pick(&used);
        let at = random.pick(&later(&book.classes[class]));
        let row = &mut book.classes[class][at];
        *row = unlike(random, class, *row);
    }
}

#[cfg(test)]
mod tests {
    use super::*;
    use std::collections::HashSet;

    /// Catches books whose rows share no numbers, or are unlike though no row was spoiled.
    #[test]
    fn rows_share_numbers_and_are_alike() {
        let (mut shared, mut across, mut large) = (0, 0, 0);
        for case in 0..200 {
            let mut random = Random::of_case(21, case);
            let shape = Shape::new(&mut random, 0);
            let book = Issues::new(&mut random, &shape).book(&mut random, 12);
            let numbers = book.classes.each_ref().map(|rows| {
                let numbers = rows.iter().map(|row| row.issue);
                numbers.collect::<HashSet<u16>>()
            });
            for rows in &book.classes {
                let mut alike = rows
                    .iter()
                    .flat_map(|one| rows.iter().map(move |two| (one, two)));
                let bare = |row: &Row| row.with_sides(0, 0);
                assert!(alike.all(|(one, two)| one.issue != two.issue || bare(one) == bare(two)));
            }
            let different: usize = numbers.iter().map(HashSet::len).sum();
            shared += usize::from(different < 12);
            across += usize::from(!numbers[0].is_disjoint(&numbers[1]));
            let amounts = book
                .classes
                .iter()
                .flatten()
                .map(|row| row.long.max(row.short));
            large += usize::from(amounts.max() > Some(100));
        }
        assert!(shared > 180 && across > 60, "{shared} {across}");
        assert!((50..120).contains(&large), "{large}");
    }

    /// Catches a book of few issues, rows of one that are unlike each other, and other rows than are
    /// asked for.
    #[test]
    fn many_issues_are_most_of_the_rows() {
        let mut alone = 0;
        for case in 0..20 {
            let mut random = Random::of_case(23, case);
            let shape = Shape::new(&mut random, 0);
            let book = many(&mut random, &shape, 600);
            assert_eq!(book.rows(), 600);
            alone += usize::from(book.classes.iter().any(|rows| rows.len() == 600));
            let (mut terms, mut issues) = (HashSet::new(), HashSet::new());
            for (class, rows) in book.classes.iter().enumerate() {
                for row in rows {
                    assert!(row.issue != 0 && (1..10).contains(&row.long) && row.short == 0);
                    issues.insert((class, row.issue));
                    terms.insert((class, row.issue, row.group, row.kind, row.days, row.coupon));
                }
            }
            assert_eq!(terms.len(), issues.len());
            assert!((450..560).contains(&issues.len()), "{}", issues.len());
        }
        assert!((5..20).contains(&alone), "{alone}");
    }

    /// Catches a change that is none, of several fields, of the amounts, or of the number; and a
    /// field that is never changed.
    #[test]
    fn one_field_is_changed() {
        let mut changed = [[0; 4]; CLASSES];
        for case in 0..4_000 {
            let mut random = Random::of_case(22, case);
            let class = case as usize % CLASSES;
            let shape = Shape::new(&mut random, 0);
            let old = row(&mut random, class, &shape);
            let new = unlike(&mut random, class, old);
            let fields = [
                old.with_group(new.group),
                old.with_kind(new.kind),
                old.with_days(new.days),
                old.with_coupon(new.coupon),
            ];
            assert_ne!(old, new);
            let which = fields.iter().position(|field| *field == new);
            changed[class][which.expect("one field")] += 1;
        }
        let some = changed.map(|counts| counts.map(|count| count > 50));
        let expected = [
            [true; 4],
            [true, true, false, false],
            [true, false, false, false],
            [true, false, true, false],
        ];
        assert_eq!(some, expected, "{changed:?}");
    }
}
