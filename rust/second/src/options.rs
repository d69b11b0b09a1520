//! Options by the delta-plus method (document 02, P9; A.5, 4 to 7).

use crate::book::{Class, Refusal};
use crate::option_table::{positions, Position};
use crate::written::{file, write};
use crate::{charge, figure, table, GROUPS};

/// What the call gives of an option table: its refusal, or the length of the book that is written, the
/// charges of gamma and of vega, and those of the book. All figures are zero on a refusal.
#[derive(Clone, Copy, Debug, Default, PartialEq, Eq)]
pub struct Options {
    pub refusal: Refusal,
    /// The length of the written book.
    pub length: u64,
    /// Of equity, foreign exchange and commodities.
    pub gammas: [u64; 3],
    pub vegas: [u64; 3],
    /// The six charges of the written book, and its total.
    pub charges: [u64; 7],
}

/// The classes that options have, in the order of their figures.
const CLASSES: [Class; 3] = [Class::Equity, Class::Exchange, Class::Commodity];

/// The underlying times the delta, rounded up to a whole amount (A.5, 4).
fn delta_amount(position: &Position) -> u32 {
    let exact = position.value * position.delta;
    ((exact + 9_999) / 10_000) as u32
}

/// The row of a book that an option counts as, or none where its delta is 0 (A.5, 4 and 6).
fn delta_row(position: &Position) -> Option<(Class, Vec<u8>)> {
    let amount = delta_amount(position);
    let sides = match position.long() {
        true => [amount, 0],
        false => [0, amount],
    };
    let fields = [
        &[position.group as u8, position.kind][..],
        &position.days.to_le_bytes(),
        // Neither a coupon nor an issue number.
        &[0; 4],
        &sides.map(u32::to_le_bytes).concat(),
    ];
    (amount > 0).then(|| (position.class, fields.concat()))
}

/// The book of some positions: the rows of each class in the order of the table.
fn book_of(positions: &[Position]) -> Vec<u8> {
    let of_class = |class: Class| positions.iter().filter(move |one| one.class == class);
    let rows = CLASSES.into_iter().flat_map(of_class);
    let rows: Vec<(Class, Vec<u8>)> = rows.filter_map(delta_row).collect();
    file(&rows)
}

/// The move of the underlying that gamma is charged for, in per cent (A.5, 7 (ii)).
fn variation(class: Class) -> i128 {
    match class {
        Class::Equity | Class::Exchange => 8,
        Class::Commodity => 15,
        Class::Interest => unreachable!("no option is on interest"),
    }
}

/// The gamma impact of an option, in half mils (A.5, 7 (i)).
fn gamma_impact(position: &Position) -> i128 {
    let variation = variation(position.class);
    position.sign() * position.value * position.gamma * variation * variation
}

/// The gamma charge of options on one underlying, in mils: the whole impact where it is a loss, and
/// that alone is rounded up (A.5, 7 (iv) and (v)).
fn gamma(own: &[&Position]) -> i128 {
    let impact: i128 = own.iter().map(|position| gamma_impact(position)).sum();
    let half_mils = 0.max(-impact);
    half_mils / 2 + half_mils % 2
}

/// The vega charge of options on one underlying, in mils, whichever way volatility moves (A.5, 7 (vi)
/// and (vii)). A quarter of a hundredth of a point costs 2,500 mils for each thousand of vega.
fn vega(own: &[&Position]) -> i128 {
    let quarter = |position: &&Position| position.vega * position.volatility * 2_500;
    let moved: i128 = own.iter().map(|one| one.sign() * quarter(one)).sum();
    moved.abs()
}

/// A charge of each class: each of its groups is an underlying of its own (A.5, 7 (iii)).
fn by_class(positions: &[Position], of_one: fn(&[&Position]) -> i128) -> [u64; 3] {
    CLASSES.map(|class| {
        let group_charge = |group: usize| {
            let on_it = |one: &&Position| one.class == class && one.group == group;
            let own: Vec<&Position> = positions.iter().filter(on_it).collect();
            of_one(&own)
        };
        figure((0..GROUPS).map(group_charge).sum())
    })
}

/// The six charges of a book and its total, under document 01's table.
fn charges(book: &[u8]) -> [u64; 7] {
    let report = charge(book, &table());
    assert!(report.refusal.accepted(), "a written book is accepted");
    let entries = report.entries();
    entries[3..10].try_into().expect("seven figures")
}

/// The book of an option table's deltas, or why there is none.
pub fn options_book(table: &[u8]) -> Result<Vec<u8>, Refusal> {
    Ok(book_of(&positions(table)?))
}

/// Writes that book to the front of `out`, or tells why not.
fn written(table: &[u8], out: &mut [u8]) -> Result<Options, Refusal> {
    let positions = positions(table)?;
    let book = book_of(&positions);
    Ok(Options {
        refusal: Refusal::NONE,
        length: write(&book, out)?,
        gammas: by_class(&positions, gamma),
        vegas: by_class(&positions, vega),
        charges: charges(&book),
    })
}

/// Writes the book of an option table's deltas to the front of `out`, and gives the charges of gamma,
/// vega and the book; the bytes past it keep their values.
pub fn options(table: &[u8], out: &mut [u8]) -> Options {
    written(table, out).unwrap_or_else(|refusal| Options {
        refusal,
        ..Options::default()
    })
}
