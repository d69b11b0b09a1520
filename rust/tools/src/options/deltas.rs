//! The book of the deltas of options, calculated here.

use books::options::names::underlying;
use books::options::OptionRow;
use books::{Book, Row};

/// The row that an option gives: amount times delta, rounded up to a whole thousand.
fn row(option: &OptionRow) -> Row {
    let exact = u64::from(option.amount) * u64::from(option.delta);
    let amount = exact.div_ceil(10_000) as u32;
    let (bought, call) = (option.right < 2, option.right.is_multiple_of(2));
    let (long, short) = match bought == call {
        true => (amount, 0),
        false => (0, amount),
    };
    Row {
        group: option.group,
        kind: option.kind,
        days: option.days,
        coupon: 0,
        issue: 0,
        long,
        short,
    }
}

/// The book of the deltas. An option of delta 0 gives no row.
pub fn book(options: &[OptionRow]) -> Book {
    let mut book = Book::default();
    for option in options.iter().filter(|option| option.delta > 0) {
        if let Some(class) = underlying(option.class) {
            book.classes[class].push(row(option));
        }
    }
    book
}

#[cfg(test)]
mod tests {
    use super::*;

    /// The option of C.4, 50 times, as another class and right.
    fn option(class: u8, right: u8) -> OptionRow {
        OptionRow {
            class,
            group: 5,
            right,
            kind: u8::from(class == 2),
            amount: 25_000,
            delta: 7_210,
            gamma: 170,
            vega: 84,
            volatility: 2_000,
            days: if class == 4 { 1_081 } else { 0 },
        }
    }

    /// Catches puts that stand as calls do, coupon and issue that are not 0, and a class or field of
    /// another.
    #[test]
    fn each_right_stands_on_its_side() {
        for (class, place) in [(2, 1), (3, 2), (4, 3)] {
            for (right, long, short) in [
                (0, 18_025, 0),
                (1, 0, 18_025),
                (2, 0, 18_025),
                (3, 18_025, 0),
            ] {
                let of = option(class, right);
                let mut expected = Book::default();
                expected.classes[place] = vec![Row {
                    group: 5,
                    kind: of.kind,
                    days: of.days,
                    coupon: 0,
                    issue: 0,
                    long,
                    short,
                }];
                assert_eq!(book(&[of]), expected);
            }
        }
    }

    /// Catches an amount that is rounded down or to the nearest, and a row of delta 0.
    #[test]
    fn amounts_are_rounded_up() {
        for (amount, delta, expected) in [
            (1, 1, vec![1]),
            (10_000, 1, vec![1]),
            (10_001, 1, vec![2]),
            (19_999, 1, vec![2]),
            (3, 5_000, vec![2]),
            (1_000_000, 10_000, vec![1_000_000]),
            (1_000_000, 0, vec![]),
        ] {
            let of = OptionRow {
                amount,
                delta,
                ..option(3, 0)
            };
            let rows = &book(&[of]).classes[2];
            let amounts: Vec<u32> = rows.iter().map(|row| row.long).collect();
            assert_eq!(amounts, expected, "{amount} {delta}");
        }
    }

    /// Catches rows that are sorted within their class.
    #[test]
    fn rows_keep_the_order_of_the_table() {
        let with = |class, group| OptionRow {
            group,
            ..option(class, 0)
        };
        let options = [with(4, 9), with(2, 7), with(4, 1), with(2, 31), with(4, 9)];
        let groups = book(&options).classes.map(|rows| {
            let groups = rows.iter().map(|row| row.group);
            groups.collect::<Vec<u8>>()
        });
        assert_eq!(groups, [vec![], vec![7, 31], vec![], vec![9, 1, 9]]);
    }
}
