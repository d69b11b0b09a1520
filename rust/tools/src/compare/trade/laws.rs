//! The claims about the least trade (document 02, P13) on one case, by the library's own figures.

use super::super::case::Case;
use super::held::ask;
use super::Trade;
use crate::calls::Calls;
use books::{Book, Row};

/// The last day of each band for coupons below 3%: all bands have one.
const LAST_DAYS: [u16; 15] = [
    30, 90, 180, 360, 684, 1_008, 1_296, 1_548, 2_052, 2_628, 3_348, 3_816, 4_320, 7_200, 36_000,
];

/// The most rows of a book.
const MOST_ROWS: usize = 4_000;

/// What is told of the trade of a case with a limit, where the call is accepted.
fn told(calls: &dyn Calls, case: &Case, limit: u64) -> Option<Option<u64>> {
    let mut out = [0; 5];
    let trade = Trade {
        limit,
        ..case.trade
    };
    ask(calls, case, &trade, &mut out);
    (out[0] == 0).then_some((out[3] == 1).then_some(out[4]))
}

/// The general charge of a book in the currency of a case.
fn charge(calls: &dyn Calls, case: &Case, book: &[u8]) -> Option<u64> {
    let mut out = [0; 13];
    calls.interest_ladder(book, &case.table, case.trade.group, &mut out);
    (out[0] == 0).then_some(out[12])
}

/// The first book of a case with a row of a trade, where there is one and its rows allow it.
fn with_row(case: &Case, amount: u64) -> Option<Vec<u8>> {
    let (mut book, trade) = (Book::decode(&case.a)?, &case.trade);
    let amount = u32::try_from(amount).ok().filter(|amount| *amount > 0)?;
    let row = Row::default().with_group(trade.group as u8).with_kind(1);
    let row = row.with_days(LAST_DAYS[trade.band]);
    book.classes[0].push(match trade.side {
        0 => row.with_sides(amount, 0),
        _ => row.with_sides(0, amount),
    });
    book.encode().filter(|_| book.rows() <= MOST_ROWS)
}

/// An amount in words.
fn words(least: Option<u64>) -> String {
    least.map_or("none".into(), |least| least.to_string())
}

/// The charge that there is needs no trade.
fn unneeded(calls: &dyn Calls, case: &Case) -> Option<String> {
    let charge = charge(calls, case, &case.a)?;
    let least = told(calls, case, charge)?;
    let words = words(least);
    (least != Some(0)).then(|| format!("for the charge that there is, {words} is told"))
}

/// A lower limit never has a smaller amount, or one where a higher has none.
fn lower(calls: &dyn Calls, case: &Case, least: Option<u64>) -> Option<String> {
    let limit = case.trade.limit;
    let lower = [limit.saturating_sub(1), limit - limit / 4];
    lower.into_iter().find_map(|lower| {
        let other = told(calls, case, lower)?;
        let less = other.is_some_and(|other| least.is_none_or(|least| other < least));
        let [other, least] = [other, least].map(words);
        less.then(|| format!("{other} is told for {lower}, and {least} for {limit}"))
    })
}

/// A row of the amount brings the charge within the limit, and that charge wants the same amount.
fn traded(calls: &dyn Calls, case: &Case, least: u64) -> Option<String> {
    let charge = charge(calls, case, &with_row(case, least)?)?;
    let limit = case.trade.limit;
    if charge > limit {
        return Some(format!("a row of {least} costs {charge}, over {limit}"));
    }
    let again = told(calls, case, charge)?;
    let words = words(again);
    (again != Some(least)).then(|| format!("for {charge}, which {least} costs, {words} is told"))
}

/// What of them a case breaks, in words.
pub fn broken(calls: &dyn Calls, case: &Case) -> Option<String> {
    let least = told(calls, case, case.trade.limit)?;
    let told = unneeded(calls, case)
        .or_else(|| lower(calls, case, least))
        .or_else(|| traded(calls, case, least?));
    Some(format!("least trade: {}", told?))
}
