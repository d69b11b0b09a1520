//! Options and option tables put together by hand.

use super::build::{options, Case};
use books::options::{encode, OptionRow};

/// C.4 of the Amendment, 50 times: a sold call on a commodity.
pub const SOLD: OptionRow = OptionRow {
    class: 4,
    group: 5,
    right: 2,
    kind: 0,
    amount: 25_000,
    delta: 7_210,
    gamma: 170,
    vega: 84,
    volatility: 2_000,
    days: 1_081,
};

/// An option that its class accepts: a sold call on a share, a sold put on a currency, a bought call on a
/// commodity.
pub fn clean(class: u8) -> OptionRow {
    let (right, kind, days) = match class {
        2 => (2, 1, 0),
        3 => (3, 0, 0),
        _ => (0, 0, 400),
    };
    OptionRow {
        class,
        group: 10 + class,
        right,
        kind,
        amount: 1_001 * u32::from(class),
        delta: 3_333,
        gamma: 7,
        vega: 5,
        volatility: 30,
        days,
    }
}

/// An option of each class.
pub fn one_each() -> [OptionRow; 3] {
    [2, 3, 4].map(clean)
}

/// An option with something changed.
pub fn with(mut option: OptionRow, change: impl Fn(&mut OptionRow)) -> OptionRow {
    change(&mut option);
    option
}

/// So many options of the first classes in turn, with groups, rights and figures of their own; each gives a row.
pub fn many(count: u32, classes: u32) -> Vec<OptionRow> {
    let of = |at: u32| {
        let class = 2 + (at % classes) as u8;
        with(clean(class), |row| {
            (row.group, row.right) = ((at % 29) as u8, (at / 3 % 4) as u8);
            (row.amount, row.delta) = (1 + 997 * at, 1 + (13 * at % 10_000) as u16);
            (row.gamma, row.vega) = ((at % 251) as u16, (at % 241) as u16);
        })
    };
    (0..count).map(of).collect()
}

/// The bytes of a table.
pub fn table(options: &[OptionRow]) -> Vec<u8> {
    encode(options).expect("a count of two bytes")
}

/// The length of the book that options give.
pub fn length(options: &[OptionRow]) -> usize {
    8 + 16 * options.iter().filter(|option| option.delta > 0).count()
}

/// Calls of tables, into outputs that are just long enough or a little longer.
pub fn taken(tables: &[Vec<OptionRow>]) -> Vec<Case> {
    let tables = tables.iter().zip([0, 1, 9].into_iter().cycle());
    tables
        .map(|(rows, more)| options(&table(rows), length(rows) + more))
        .collect()
}

/// The refusal of a call of options: its number and row.
#[cfg(test)]
pub fn refusal(case: &Case) -> [u64; 2] {
    match case.call {
        super::build::Call::Options { room } => {
            let refusal = second::options(&case.book, &mut vec![0; room as usize]).refusal;
            [refusal.number, refusal.row]
        }
        _ => panic!("another call"),
    }
}
