//! What is counted of trades: what is found, under which circumstances, and why calls are refused.

use super::super::case::Case;
use super::turns::{BANDS, MOST};
use books::tables::Table;

/// The names of answers.
pub const ANSWERS: [&str; 6] = [
    "0",
    "1 to 999",
    "1,000 to 99,999",
    "100,000 to 999,999",
    "1,000,000",
    "none",
];
/// The names of what is traded, and of what it meets.
pub const SORTS: [&str; 11] = [
    "long",
    "short",
    "in zone 1",
    "in zone 2",
    "in zone 3",
    "with three zones used",
    "that just reach the limit",
    "under other tables than document 01's",
    "of weight 0 that are not needed",
    "of weight 0 that are in vain",
    "of which 1,000,000 is a mil short",
];
/// The names of reasons for a refusal, and of what stands behind them.
pub const REFUSALS: [&str; 15] = [
    "10",
    "18",
    "19",
    "21 for the band",
    "21 for the side",
    "21 for both",
    "for the book",
    "for a later row of the book",
    "10 before a bad table",
    "10 before a bad band or side",
    "18 or 19 before a bad band or side",
    "10 before a bad book",
    "18 before a bad book",
    "19 before a bad book",
    "21 before a bad book",
];

/// Which answer it is.
pub fn of_answer(least: Option<u64>) -> [bool; 6] {
    let Some(amount) = least else {
        return [false, false, false, false, false, true];
    };
    [
        amount == 0,
        (1..1_000).contains(&amount),
        (1_000..100_000).contains(&amount),
        (100_000..MOST).contains(&amount),
        amount == MOST,
        false,
    ]
}

/// Which sorts an accepted trade is of; most are for trades that are found and needed.
pub fn of_trade(case: &Case, least: Option<u64>) -> [bool; 11] {
    let (trade, table) = (&case.trade, Table::decode(&case.table));
    let charge = |amount| trade.charge(&case.a, &case.table, amount).ok();
    let weight = table.map(|table| table.weights[trade.band]);
    let needed = least.filter(|amount| *amount > 0);
    let (found, zone) = (needed.is_some(), second::zone_of_band(trade.band));
    [
        found && trade.side == 0,
        found && trade.side == 1,
        found && zone == 1,
        found && zone == 2,
        found && zone == 3,
        found && second::zones_used(&case.a, trade.group) == [true; 3],
        found && charge(needed.unwrap_or(0)) == Some(trade.limit),
        found && case.table != second::table(),
        weight == Some(0) && least == Some(0),
        weight == Some(0) && least.is_none(),
        least.is_none() && charge(MOST) == trade.limit.checked_add(1),
    ]
}

/// Why a call is refused with a number, for a row.
pub fn of_refusal(case: &Case, refusal: second::Refusal) -> [bool; 15] {
    let (trade, number) = (&case.trade, refusal.number);
    let (band, side) = (trade.band >= BANDS, trade.side > 1);
    let bad_table = second::read_table(&case.table).is_err();
    let bad_book = !second::check(&case.a).accepted();
    let is = |wanted: u64| number == wanted;
    let by_table = is(18) || is(19);
    let by_book = !is(10) && !by_table && !is(21);
    [
        is(10),
        is(18),
        is(19),
        is(21) && band && !side,
        is(21) && side && !band,
        is(21) && side && band,
        by_book,
        by_book && refusal.row > 0,
        is(10) && bad_table,
        is(10) && (band || side),
        by_table && (band || side),
        is(10) && bad_book,
        is(18) && bad_book,
        is(19) && bad_book,
        is(21) && bad_book,
    ]
}
