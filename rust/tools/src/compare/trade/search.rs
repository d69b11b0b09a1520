//! The least trade by the second calculation's charges where they turn. The second calculation itself tries
//! every amount, which takes long.

use super::Trade;

/// The least amount that is within a limit. Between two turns it is looked for by halves.
pub fn least(turns: &[u64], within: impl Fn(u64) -> bool) -> Option<u64> {
    let first = turns.iter().position(|amount| within(*amount))?;
    let (mut over, mut under) = (turns[first.saturating_sub(1)], turns[first]);
    while under - over > 1 {
        let middle = over + (under - over) / 2;
        match within(middle) {
            true => under = middle,
            false => over = middle,
        }
    }
    Some(under)
}

impl Trade {
    /// The least amount, if any, or why the call is refused.
    pub fn least(&self, book: &[u8], table: &[u8]) -> Result<Option<u64>, second::Refusal> {
        self.charge(book, table, 0)?;
        let turns = self.turns(book, table);
        let charge = |amount| self.charge(book, table, amount);
        let within = |amount| charge(amount).is_ok_and(|charge| charge <= self.limit);
        Ok(least(&turns, within))
    }
}

/// The entries of the call in a currency, band and side.
#[cfg(test)]
pub fn answer(book: &[u8], table: &[u8], place: [usize; 3], limit: u64) -> [u64; 5] {
    let [group, band, side] = place;
    let trade = Trade {
        group,
        band,
        side,
        limit,
        ..Trade::default()
    };
    match trade.least(book, table) {
        Ok(least) => [0, 0, 0, least.is_some().into(), least.unwrap_or(0)],
        Err(refusal) => [refusal.number, refusal.row, refusal.book, 0, 0],
    }
}

#[cfg(test)]
mod tests {
    use super::super::super::case::Case;
    use super::*;

    /// Catches an end of a stretch that is passed over, and an amount beside the least.
    #[test]
    fn the_least_is_found_between_two_turns() {
        assert_eq!(least(&[0, 10, 20], |amount| amount >= 14), Some(14));
        assert_eq!(least(&[0, 10, 20], |amount| amount >= 10), Some(10));
        assert_eq!(least(&[0, 10, 20], |amount| amount < 5), Some(0));
        assert_eq!(least(&[0, 10, 20], |amount| amount == 20), Some(20));
        assert_eq!(least(&[0, 10, 20], |_| false), None);
    }

    /// Catches a turn that is left out: every amount is tried beside it.
    #[test]
    fn the_second_calculation_finds_the_same() {
        for number in 0..400 {
            let Case {
                a, table, trade, ..
            } = Case::new(5, number);
            let Trade {
                group,
                band,
                side,
                limit,
                ..
            } = trade;
            let tried = second::least_trade(&a, &table, group, band, side, limit);
            let found = answer(&a, &table, [group, band, side], limit);
            assert_eq!(found, tried.entries(), "{number}");
        }
    }
}
