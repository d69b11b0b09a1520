//! What is counted of the two option tables of a case.

use super::underlyings::{impact, shift, sides, Sides};
use super::OptionTables;
use books::options::{decode, OptionRow, MOST_OPTIONS};

/// The names of what two tables come to.
pub const TWO: [&str; 6] = [
    "joined",
    "joined on two sides of an underlying",
    "together",
    "together with less gamma",
    "together with less vega",
    "together more than 1,000 options",
];

/// The options of a table that is accepted.
fn accepted(table: &[u8]) -> Option<Vec<OptionRow>> {
    second::options_book(table).ok()?;
    decode(table)
}

/// Whether two options give rows on two sides of one underlying.
fn meet(one: &OptionRow, other: &OptionRow) -> bool {
    let underlying = |option: &OptionRow| (option.class, option.group);
    let long = |option: &OptionRow| [0, 3].contains(&option.right);
    let rows = one.delta > 0 && other.delta > 0;
    rows && underlying(one) == underlying(other) && long(one) != long(other)
}

/// The charge of gamma, in half mils, and that of vega, in mils.
fn greeks(options: &[OptionRow]) -> [i64; 2] {
    let sum = |number, charge: fn(&Sides) -> i64| sides(options, number).iter().map(charge).sum();
    [
        sum(impact, |sides| 0.max(-sides.net())),
        sum(shift, |sides| sides.net().abs()),
    ]
}

/// Which of them two tables are.
pub fn of_two(tables: &OptionTables) -> [bool; 6] {
    let (Some(a), Some(b)) = (accepted(&tables.a), accepted(&tables.b)) else {
        return [false; 6];
    };
    let met = a.iter().any(|one| b.iter().any(|other| meet(one, other)));
    let together = a.len() + b.len() <= MOST_OPTIONS;
    let apart = [greeks(&a), greeks(&b)];
    let whole = greeks(&[a, b].concat());
    let less = |at: usize| together && whole[at] < apart[0][at] + apart[1][at];
    [true, met, together, less(0), less(1), !together]
}
