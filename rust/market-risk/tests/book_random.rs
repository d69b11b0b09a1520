//! Random rows that are added one by one, held to the bytes that `books` makes of the same fields.

use books::generate::{self, Shape};
use books::Random;
use market_risk::{check, Book, EquityKind, InterestKind, Position, Row};

/// The row of a class as the builder takes it.
fn typed(class: usize, row: &books::Row) -> Row {
    use {EquityKind::*, InterestKind::*};
    let kind = usize::from(row.kind);
    let (issue, position) = match (row.long, row.short) {
        (long, 0) => (row.issue, Position::Long(long)),
        (_, short) => (row.issue, Position::Short(short)),
    };
    match (class, row.kind) {
        (0, 4) => Row::FloatingRateNote {
            currency: row.group,
            fixing: row.days,
            maturity: row.coupon,
            issue,
            position,
        },
        (0, _) => Row::Interest {
            currency: row.group,
            kind: [Government, Qualifying, Other][kind - 1],
            days: row.days,
            coupon: row.coupon,
            issue,
            position,
        },
        (1, _) => Row::Equity {
            market: row.group,
            kind: [Ordinary, Diversified, Index][kind - 1],
            issue,
            position,
        },
        (2, _) => Row::Exchange {
            currency: row.group,
            issue,
            position,
        },
        _ => Row::Commodity {
            commodity: row.group,
            days: row.days,
            issue,
            position,
        },
    }
}

/// The row with one field that may be anything that its bytes hold, where the class has the field.
fn widened(random: &mut Random, class: usize, row: books::Row) -> books::Row {
    let any = random.draw();
    match (random.below(4), class) {
        (0, _) => row.with_group(any as u8),
        (1, 0 | 3) => row.with_days(any as u16),
        (2, 0) => row.with_coupon(any as u16),
        _ => row.with_sides(0, any as u32),
    }
}

/// Rows of all classes in any order, with their class, now and then one that is widened.
fn rows(random: &mut Random) -> Vec<(usize, books::Row)> {
    let count = 1 + random.below(12) as usize;
    let shape = Shape::new(random, count);
    let classes = generate::book(random, &shape).classes;
    let rows = classes.into_iter().enumerate();
    let mut rows: Vec<_> = rows
        .flat_map(|(class, rows)| rows.into_iter().map(move |row| (class, row)))
        .collect();
    random.shuffle(&mut rows);
    for (class, row) in &mut rows {
        if random.once_in(12) {
            *row = widened(random, *class, *row);
        }
    }
    rows
}

/// Catches a field in another's place or cut off, a kind with another's number, rows in another order than that
/// of adding, and a refusal that is not the same file's.
#[test]
fn bytes_are_those_of_the_same_fields() {
    let [mut accepted, mut refused] = [0; 2];
    for case in 0..2_000 {
        let rows = rows(&mut Random::of_case(25, case));
        let built = Book::of(rows.iter().map(|(class, row)| typed(*class, row))).unwrap();
        assert_eq!(built.rows(), rows.len());
        let mut expected = books::Book::default();
        for (class, row) in rows {
            expected.classes[class].push(row);
        }
        let expected = expected.encode().unwrap();
        let checked = check(&expected);
        assert_eq!(built.bytes(), checked.map(|()| &expected[..]));
        accepted += u32::from(checked.is_ok());
        refused += u32::from(checked.is_err());
    }
    assert!(accepted > 500 && refused > 500, "{accepted} {refused}");
}
