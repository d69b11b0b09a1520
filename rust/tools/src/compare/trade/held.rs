//! The least trade of a case by two calculations. The second one tries every amount, which takes long: an
//! answer that is far is mostly held to its charges in the place of its answer.

use super::super::case::Case;
use super::super::check::{both, MARK};
use super::turns::MOST;
use super::Trade;
use crate::calls::Calls;
use books::Random;

/// Up to this amount all are tried.
const NEAR: u64 = 2_000;

/// How many amounts are drawn beside those where the charge turns.
const DRAWN: usize = 4;

/// Asks a calculation for the trade of a case.
pub fn ask(calls: &dyn Calls, case: &Case, trade: &Trade, out: &mut [u64; 5]) {
    let Trade {
        group, band, side, ..
    } = *trade;
    calls.least_trade(&case.a, &case.table, group, band, side, trade.limit, out);
}

/// The amounts below one at which the charge must be over the limit: the last of them, those where it turns,
/// and some that are drawn.
fn below(case: &Case, end: u64) -> Vec<u64> {
    let trade = &case.trade;
    let mut random = Random::new(trade.sample);
    let mut amounts = trade.turns(&case.a, &case.table);
    if end > 0 {
        amounts.push(end - 1);
        amounts.extend((0..DRAWN).map(|_| random.below(end)));
    }
    amounts.retain(|amount| *amount < end);
    amounts
}

/// What of an answer to an accepted call is not so by the second calculation's charges.
fn broken(answer: &[u64; 5], case: &Case) -> Option<String> {
    let trade = &case.trade;
    let least = match *answer {
        [0, 0, 0, 1, amount] if amount <= MOST => Some(amount),
        [0, 0, 0, 0, 0] => None,
        _ => return Some(format!("{answer:?} is no answer")),
    };
    let charge = |amount| trade.charge(&case.a, &case.table, amount).unwrap_or(0);
    let told = least.map_or("none".into(), |least| least.to_string());
    let limit = trade.limit;
    if let Some(charge) = least.map(charge).filter(|charge| *charge > limit) {
        return Some(format!("{told} is told, which costs {charge}"));
    }
    let below = below(case, least.unwrap_or(MOST + 1));
    let amount = below.into_iter().find(|amount| charge(*amount) <= limit)?;
    let costs = charge(amount);
    Some(format!("{told} is told, and {amount} costs {costs}"))
}

/// Whether every amount up to the answer is tried.
fn tried(answer: &[u64; 5], case: &Case) -> bool {
    let trade = &case.trade;
    let refused = trade.charge(&case.a, &case.table, 0).is_err();
    let near = answer[3] == 1 && answer[4] <= NEAR;
    refused || near || trade.whole
}

/// The first difference of a case, in words.
pub fn difference(calculations: [&dyn Calls; 2], case: &Case) -> Option<String> {
    let [library, _] = calculations;
    let mut answer = [MARK; 5];
    ask(library, case, &case.trade, &mut answer);
    if tried(&answer, case) {
        return both("least trade", calculations, |calls, out| {
            ask(calls, case, &case.trade, out);
        });
    }
    let (name, what) = (library.name(), broken(&answer, case)?);
    let limit = case.trade.limit;
    Some(format!(
        "least trade by {name}: {what} by the second calculation, for a limit of {limit}"
    ))
}
