//! What is printed of a least trade.

use super::answered::Answered;
use super::asked::Asked;
use super::curve::{Curve, MOST};
use crate::ladder::interest;
use crate::ladder::made;
use crate::lines::{show, Line, Sign};
use crate::text::{mils, whole};
use market_risk::Table;

/// An amount added to its side, in words.
fn with(asked: &Asked, amount: u64) -> String {
    format!("with {} {}", asked.side_word(), whole(amount))
}

/// Charges beside the limit: as it is; with the amount and with one less; where there is none, with the most
/// and the lowest of all.
fn charges(curve: &Curve, asked: &Asked, answer: Option<u64>) -> Vec<Line> {
    let line = |name: String, amount: u64| {
        let (charge, limit) = (curve.charge(amount), i128::from(asked.limit));
        let sign = match charge <= limit {
            true => Sign::AtMost,
            false => Sign::Over,
        };
        let right = (limit, format!("{} limit", mils(limit)));
        Line::new(name, (charge, mils(charge)), sign, right)
    };
    let plain = |amount: u64| line(with(asked, amount), amount);
    let mut lines = vec![line("before".into(), 0)];
    match answer {
        Some(0) => (),
        Some(amount) => lines.extend([plain(amount), plain(amount - 1)]),
        None => {
            let lowest = curve.lowest();
            let name = format!("lowest, {}", with(asked, lowest));
            lines.extend([plain(MOST), line(name, lowest)]);
        }
    }
    lines
}

/// The whole text, with the ladder before; or what does not add up in the ladder after, which
/// only a least trade above 0 has.
pub fn text(answered: &Answered, table: &Table) -> Result<String, String> {
    let (curve, asked, answer) = (&answered.curve, answered.asked, answered.amount);
    let title = answered.title();
    let charges = show(&charges(curve, asked, answer));
    let before = interest::text(&answered.before, false);
    let text = format!("{title}\n\n{charges}\nthe ladder before\n{before}");
    match answer {
        None | Some(0) => Ok(text),
        Some(amount) => {
            let after = interest::text(&made(&curve.amounts(amount), asked.group, table)?, false);
            let (with, band) = (with(asked, amount), asked.band);
            Ok(format!("{text}\nthe ladder {with} in band {band}\n{after}"))
        }
    }
}
