//! The library's answer, held to the rows and to the charges that are calculated here.

use super::ask::ask;
use super::asked::Asked;
use super::curve::{Curve, MOST};
use super::doubt::doubt;
use crate::ladder::interest::Interest;
use crate::load::Given;
use crate::text::whole;
use books::Book;
use market_risk::Table;
use std::collections::BTreeSet;

/// A least trade that nothing is found against, or that there is none.
pub struct Answered<'a> {
    pub asked: &'a Asked,
    pub curve: Curve<'a>,
    pub before: Interest,
    pub amount: Option<u64>,
}

impl<'a> Answered<'a> {
    /// What the library answers, or why that is not told.
    pub fn new(given: &Given, table: &'a Table, asked: &'a Asked) -> Result<Answered<'a>, String> {
        let (ladder, amount) = ask(given, table, asked)?;
        let book = Book::decode(&given.bytes).unwrap_or_default();
        let rows = &book.classes[0];
        let curve = Curve::new(rows, asked, table);
        let before = Interest::new(rows, asked.group, table, &ladder);
        let doubts = doubt(&curve, asked.limit, amount);
        match (before, &doubts[..]) {
            (Ok(before), []) => Ok(Answered {
                asked,
                curve,
                before,
                amount,
            }),
            (before, _) => {
                let told: Vec<String> = before.err().into_iter().chain(doubts).collect();
                Err(told.join("\n"))
            }
        }
    }

    /// The answer in words.
    pub fn title(&self) -> String {
        let what = match self.amount {
            None => format!(
                "no amount of 0 to {} thousands brings the charge within the limit",
                whole(MOST)
            ),
            Some(0) => "0 thousands, the charge is within the limit as it is".into(),
            Some(amount) => format!(
                "{} thousands are the least that bring the charge within the limit",
                whole(amount)
            ),
        };
        let (group, band, side) = (self.asked.group, self.asked.band, self.asked.side_word());
        format!("{side} in band {band} of currency {group}: {what}")
    }

    /// The amount that a drawing marks, and what it is: the least, or that of the lowest charge.
    pub fn marked(&self) -> (u64, &'static str) {
        match self.amount {
            Some(amount) => (amount, "least amount"),
            None => (self.curve.lowest(), "none is within the limit; lowest with"),
        }
    }

    /// The last amount that is worth seeing: a quarter past the marked one, or past the turns that are
    /// not far from it. Where nothing is marked and the charge never turns, it is drawn until it has doubled.
    fn last(&self, turns: &[u64]) -> u64 {
        let first = turns.iter().copied().find(|turn| *turn > 0);
        let marked = match self.marked().0 {
            0 => first.unwrap_or_else(|| self.doubled()),
            amount => amount,
        };
        let near = turns.iter().filter(|turn| **turn <= 4 * marked);
        let last = near.copied().max().unwrap_or(0).max(marked);
        (last + last.div_ceil(4)).clamp(4, MOST)
    }

    /// The amount with which the charge is twice what it is without, by its first slope.
    fn doubled(&self) -> u64 {
        let [none, one] = [0, 1].map(|amount| self.curve.charge(amount));
        let amount = none / (one - none).max(1);
        u64::try_from(amount).unwrap_or(0).clamp(80, MOST)
    }

    /// The amounts that are worth seeing with their charges, in order. Between two of them the charge runs
    /// straight.
    pub fn seen(&self) -> Vec<(u64, i128)> {
        let turns: Vec<u64> = BTreeSet::from_iter(self.curve.turns())
            .into_iter()
            .collect();
        let last = self.last(&turns);
        let before = self.amount.and_then(|amount| amount.checked_sub(1));
        let others = [0, self.marked().0, last].into_iter().chain(before);
        let amounts: BTreeSet<u64> = others
            .chain(turns)
            .filter(|amount| *amount <= last)
            .collect();
        let charged = |amount: u64| (amount, self.curve.charge(amount));
        amounts.into_iter().map(charged).collect()
    }
}
