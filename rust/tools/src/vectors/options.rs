//! Option tables that are taken: C.4 of the Amendment, each right in each class, every kind and band, fields at
//! their ends, rows in the table's order, and outputs of each length that matters. What meets in the sums of
//! gamma and vega is in `options_sums.rs`.

use super::build::{options, Case};
use super::options_build::{clean, many, one_each, table, taken, with, SOLD};
use books::options::OptionRow;

/// Each right in each class, alone and all together.
fn rights() -> Vec<Vec<OptionRow>> {
    let right = |class: u8| [0, 1, 2, 3].map(|right| with(clean(class), |row| row.right = right));
    let all = [2, 3, 4].map(right).concat();
    let alone = all.iter().map(|option| vec![*option]);
    alone.chain([all.clone()]).collect()
}

/// Amounts of the underlying, each at every delta that matters, in the classes in turn.
fn deltas() -> Vec<Vec<OptionRow>> {
    let amounts = [1, 2, 9_999, 10_000, 10_001, 65_536, 999_999, 1_000_000];
    let of = |amount: u32| {
        let deltas = [(2, 0), (3, 1), (4, 5_000), (2, 9_999), (3, 10_000)];
        let option = |(class, delta)| {
            with(clean(class), |row| {
                (row.amount, row.delta) = (amount, delta)
            })
        };
        deltas.map(option).to_vec()
    };
    amounts.map(of).to_vec()
}

/// Gamma, vega and volatility, one of them at its ends and between, in each class; and all at their greatest.
fn greeks() -> Vec<Vec<OptionRow>> {
    let changes: [fn(&mut OptionRow, u16); 3] = [
        |row, value| row.gamma = value,
        |row, value| row.vega = value,
        |row, value| row.volatility = value,
    ];
    let mut tables = Vec::new();
    for value in [0, 1, 256, 65_535] {
        let of = |change: fn(&mut OptionRow, u16)| {
            one_each().map(|row| with(row, |row| change(row, value)))
        };
        tables.extend(changes.map(|change| of(change).to_vec()));
    }
    let greatest = |row: &mut OptionRow| {
        (row.right, row.amount, row.delta) = (3, 1_000_000, 10_000);
        (row.gamma, row.vega, row.volatility) = (65_535, 65_535, 65_535);
    };
    tables.push(one_each().map(|row| with(row, greatest)).to_vec());
    tables
}

/// The first and the last group, and all 32 of a class, with sides and amounts of their own.
fn groups() -> Vec<Vec<OptionRow>> {
    let of = |class: u8, group: u8| {
        with(clean(class), |row| {
            (row.group, row.right) = (group, group % 4);
            row.amount += 100 * u32::from(group);
        })
    };
    let mut tables = Vec::new();
    for class in [2, 3, 4] {
        tables.extend([0, 31].map(|group| vec![of(class, group)]));
        tables.push((0..32).map(|group| of(class, group)).collect());
    }
    tables
}

/// Each kind of shares and both ends of each band of commodities, alone and all together.
fn kinds_and_days() -> Vec<Vec<OptionRow>> {
    let kinds = [1, 2, 3].map(|kind| with(clean(2), |row| (row.kind, row.amount) = (kind, 70)));
    let ends = [
        0, 30, 31, 90, 91, 180, 181, 360, 361, 720, 721, 1_080, 1_081, 36_000,
    ];
    let days = ends.map(|days| with(SOLD, |row| (row.days, row.right) = (days, days as u8 % 4)));
    let alone = kinds.iter().chain(&days).map(|option| vec![*option]);
    alone.chain([kinds.to_vec(), days.to_vec()]).collect()
}

/// Two options of each class in each order of the classes, and one that gives no row between them.
fn orders() -> Vec<Vec<OptionRow>> {
    let orders = [
        [2, 3, 4],
        [2, 4, 3],
        [3, 2, 4],
        [3, 4, 2],
        [4, 2, 3],
        [4, 3, 2],
    ];
    let of = |order: [u8; 3]| {
        let none = with(clean(order[0]), |row| row.delta = 0);
        let mut rows = [&order.map(clean)[..], &[none], &order.map(clean)].concat();
        (0..).zip(&mut rows).for_each(|(at, row)| row.amount += at);
        rows
    };
    orders.map(of).to_vec()
}

/// All of these, and C.4 in a nearer band.
fn sorts() -> Vec<Vec<OptionRow>> {
    let nearer = with(SOLD, |row| row.days = 360);
    [
        vec![vec![nearer]],
        rights(),
        deltas(),
        greeks(),
        groups(),
        kinds_and_days(),
        orders(),
    ]
    .concat()
}

/// Outputs of few bytes and around what is written: without options, of one and of four without delta and with it,
/// of 1,000, and of 256 of one class.
fn rooms() -> Vec<Case> {
    let none = with(SOLD, |row| row.delta = 0);
    let four = [SOLD, clean(3), none, clean(2)].to_vec();
    let mut cases = Vec::new();
    for (rows, rooms) in [
        (vec![], &[0, 7, 8, 9][..]),
        (vec![none], &[0, 7, 8, 9, 24]),
        (vec![SOLD], &[0, 7, 8, 23, 24, 25, 65_536]),
        (four, &[0, 7, 8, 24, 40, 55, 56, 57, 72, 73]),
        (many(1_000, 3), &[16_008]),
        (many(256, 1), &[4_104]),
    ] {
        cases.extend(rooms.iter().map(|room| options(&table(&rows), *room)));
    }
    cases
}

/// All of them.
pub fn cases() -> Vec<Case> {
    [taken(&sorts()), rooms()].concat()
}

#[cfg(test)]
mod tests {
    use super::super::options_build::refusal;
    use super::*;
    use std::collections::HashSet;

    /// Catches tables that are refused, and outputs that are refused for another reason than their length.
    #[test]
    fn refusals_by_hand() {
        assert!(taken(&sorts()).iter().all(|case| refusal(case) == [0, 0]));
        let numbers: Vec<u64> = rooms().iter().map(|case| refusal(case)[0]).collect();
        let expected = [
            &[12, 12, 0, 0][..],
            &[12, 12, 0, 0, 0],
            &[12, 12, 12, 12, 0, 0, 0],
            &[12, 12, 12, 12, 12, 12, 0, 0, 0, 0],
            &[0, 0],
        ];
        assert_eq!(numbers, expected.concat());
    }

    /// The amounts of the book of some options, long above zero and short below.
    fn nets(rows: &[OptionRow]) -> Vec<i64> {
        let book = books::Book::decode(&second::options_book(&table(rows)).unwrap());
        let classes = book.expect("a written book").classes;
        let net = |row: &books::Row| i64::from(row.long) - i64::from(row.short);
        classes.concat().iter().map(net).collect()
    }

    #[test]
    fn amounts_and_their_order_by_hand() {
        assert_eq!(nets(&deltas()[2]), [-9_999, 1, 9_999, 5_000]);
        assert_eq!(nets(&orders()[4]), [-668, -669, 1_002, 1_003, 1_335, 1_336]);
        assert_eq!(nets(&rights()[12])[..4], [668, -668, -668, 668]);
        let (mut out, nearer) = (vec![0; 24], &sorts()[0]);
        let total = second::options(&table(nearer), &mut out).charges[6];
        assert_eq!(total, 2_703_750_000 + 324_450_000);
    }

    /// Catches tables that the stored lines cannot tell from each other: only vega 0 and volatility 0 are alike.
    #[test]
    fn every_table_has_an_answer_of_its_own() {
        let answer = |rows: &Vec<OptionRow>| {
            let mut out = vec![0; 16_008];
            (second::options(&table(rows), &mut out).entries(), out)
        };
        let answers: HashSet<_> = sorts().iter().map(answer).collect();
        assert_eq!(answers.len() + 1, sorts().len());
    }
}
