//! What a run has seen of the least trade.

use super::super::case::Case;
use super::super::nets::{add, listed};
use super::sorts::{of_answer, of_refusal, of_trade, ANSWERS, REFUSALS, SORTS};
use std::fmt;

/// Counts of trades.
#[derive(Default)]
pub struct Seen {
    /// Accepted ones by what is found.
    pub answers: [u64; 6],
    pub sorts: [u64; 11],
    pub refusals: [u64; 15],
}

impl Seen {
    /// Counts the trade of a case.
    pub fn count(&mut self, case: &Case) {
        match case.trade.least(&case.a, &case.table) {
            Ok(least) => {
                add(&mut self.answers, of_answer(least));
                add(&mut self.sorts, of_trade(case, least));
            }
            Err(refusal) => add(&mut self.refusals, of_refusal(case, refusal)),
        }
    }

    /// Every count beside its name.
    pub fn named(&self) -> Vec<(String, u64)> {
        let named = |what: &str, names: &[&str], counts: &[u64]| -> Vec<(String, u64)> {
            let counts = names.iter().zip(counts);
            let named = counts.map(|(name, count)| (format!("{what} {name}"), *count));
            named.collect()
        };
        [
            named("least trades of", &ANSWERS, &self.answers),
            named("trades", &SORTS, &self.sorts),
            named("least trades refused", &REFUSALS, &self.refusals),
        ]
        .concat()
    }
}

impl fmt::Display for Seen {
    fn fmt(&self, out: &mut fmt::Formatter) -> fmt::Result {
        write!(
            out,
            "least trades of {}\ntrades {}\nleast trades refused {}",
            listed(&ANSWERS, &self.answers),
            listed(&SORTS, &self.sorts),
            listed(&REFUSALS, &self.refusals)
        )
    }
}
