//! What a case asks of the least trade: a currency, a band, a side and a limit.

use super::turns::{turns, MOST};
use books::{Book, Random, Row};

/// The four numbers of a call, and how its answer is looked at.
#[derive(Clone, Copy, Debug, PartialEq, Eq)]
pub struct Trade {
    pub group: usize,
    pub band: usize,
    pub side: usize,
    /// In mils.
    pub limit: u64,
    /// Whether every amount is tried, however far the answer is.
    pub whole: bool,
    /// The seed of the amounts that are tried else.
    pub sample: u64,
}

impl Default for Trade {
    /// A trade that is not needed: the limit is above all charges.
    fn default() -> Trade {
        Trade {
            group: 0,
            band: 0,
            side: 0,
            limit: u64::MAX,
            whole: false,
            sample: 0,
        }
    }
}

/// What sets the stream of trades apart from the others of a seed.
const STREAM: u64 = 0x0074_7261_6465_7321;

/// In one of so many cases every amount is tried.
const WHOLE: u64 = 200;

/// A currency: mostly one of a row, with three zones if one soon comes up; any, or one past the end.
fn group(random: &mut Random, a: &[u8], rows: &[Row]) -> usize {
    match random.below(14) {
        0 => random.pick(&[32, 32, 33, 255, 256, 1 << 32, usize::MAX]),
        1 => random.below(32) as usize,
        _ if rows.is_empty() => random.below(32) as usize,
        _ => {
            let some = [0; 3].map(|_| usize::from(random.pick(rows).group));
            let three = |group: &usize| second::zones_used(a, *group) == [true; 3];
            some.into_iter().find(three).unwrap_or(some[0])
        }
    }
}

/// A band, sometimes one past the end.
fn band(random: &mut Random) -> usize {
    match random.below(12) {
        0 => random.pick(&[15, 15, 16, 255, 256, (1 << 32) + 3, usize::MAX]),
        _ => random.below(15) as usize,
    }
}

/// A side, sometimes none.
fn side(random: &mut Random) -> usize {
    match random.below(14) {
        0 => random.pick(&[2, 2, 3, 256, 257, (1 << 32) + 1, usize::MAX]),
        _ => random.below(2) as usize,
    }
}

/// An amount whose charge is to be reached, often one where the charge turns, or a smaller one.
fn amount(random: &mut Random, turns: &[u64]) -> u64 {
    match random.below(14) {
        0 => 0,
        1 | 2 => random.below(10),
        3 => random.below(1_000),
        4 => random.below(MOST + 1),
        5 | 6 => random.pick(&[MOST - 1, MOST, MOST]),
        7 | 8 => random.pick(turns),
        _ => {
            let turn = random.pick(turns);
            random.below(turn + 1)
        }
    }
}

/// A limit: mostly a charge that is reached, or one mil beside it.
fn limit(random: &mut Random, charge: u64) -> u64 {
    match random.below(16) {
        0 => 0,
        1 => random.pick(&[1, u64::MAX, u64::MAX, 1 << 32]),
        2 => random.draw() >> random.below(64),
        3..=6 => charge.saturating_sub(1),
        7 | 8 => charge + 1,
        _ => charge,
    }
}

impl Trade {
    /// The general charge with an amount added, by the second calculation, or why the call is refused.
    pub fn charge(&self, book: &[u8], table: &[u8], amount: u64) -> Result<u64, second::Refusal> {
        second::charge_with(book, table, self.group, self.band, self.side, amount)
    }

    /// The amounts beside which the charge of an accepted call turns.
    pub fn turns(&self, book: &[u8], table: &[u8]) -> Vec<u64> {
        match self.charge(book, table, 0) {
            Ok(_) => turns(book, table, self.group, self.band),
            Err(_) => vec![0, MOST],
        }
    }

    /// The same trade on the other side, mostly, where this one is dearer with an amount than without.
    fn turned(self, random: &mut Random, book: &[u8], table: &[u8], amount: u64) -> Trade {
        let [before, after] = [0, amount].map(|amount| self.charge(book, table, amount).ok());
        match before < after && !random.once_in(8) {
            true => Trade {
                side: 1 - self.side,
                ..self
            },
            false => self,
        }
    }

    /// The trade of the case with this number of a seed, for its first book and its table.
    pub fn of_case(seed: u64, number: u64, book: &[u8], table: &[u8]) -> Trade {
        let mut random = Random::of_case(seed ^ STREAM, number);
        let rows = Book::decode(book).map_or(Vec::new(), |book| book.classes[0].clone());
        let trade = Trade {
            group: group(&mut random, book, &rows),
            band: band(&mut random),
            side: side(&mut random),
            limit: 0,
            whole: number % WHOLE == WHOLE / 2,
            sample: random.draw(),
        };
        let turns = trade.turns(book, table);
        let amount = amount(&mut random, &turns);
        let trade = trade.turned(&mut random, book, table, amount);
        let charge = trade.charge(book, table, amount);
        Trade {
            limit: limit(&mut random, charge.unwrap_or(0)),
            ..trade
        }
    }

    /// Plainer trades next to this one: none that is needed, a smaller currency, band, side or limit,
    /// which comes down by parts: there are too many limits to go one by one.
    pub fn plainer(self) -> impl Iterator<Item = Trade> {
        let groups = [0, self.group.min(32)].map(|group| Trade { group, ..self });
        let bands = [0, self.band.saturating_sub(1), self.band.min(15)];
        let bands = bands.map(|band| Trade { band, ..self });
        let sides = [0, self.side.min(2)].map(|side| Trade { side, ..self });
        let limits = [0, self.limit / 2, self.limit - self.limit / 8];
        let limits = limits.map(|limit| Trade { limit, ..self });
        let some = [
            Trade {
                whole: false,
                ..self
            },
            Trade { sample: 0, ..self },
        ];
        let plainer = groups.into_iter().chain(bands).chain(sides).chain(limits);
        let size = |trade: &Trade| {
            let place = (trade.group, trade.band, trade.side);
            (place, trade.limit, trade.whole, trade.sample)
        };
        let plainer = plainer.chain(some);
        let plainer = plainer.filter(move |plain| size(plain) < size(&self));
        let needed = self != Trade::default();
        let all = [Trade::default()].into_iter().chain(plainer);
        all.filter(move |_| needed)
    }
}

#[cfg(test)]
mod tests {
    use super::*;

    /// Catches trades that are all alike.
    #[test]
    fn a_trade_is_made_by_itself() {
        let (book, table) = ([0; 8], second::table());
        let trade = |seed, number| Trade::of_case(seed, number, &book, &table);
        assert_eq!(trade(3, 9), trade(3, 9));
        assert_ne!(trade(3, 9), trade(4, 9));
        assert_ne!(trade(3, 9), trade(3, 10));
    }

    /// Catches cuts that go round and round.
    #[test]
    fn plainer_trades_come_to_an_end() {
        assert_eq!(Trade::default().plainer().count(), 0);
        let mut trade = Trade::of_case(1, 7, &[0; 8], &second::table());
        for _ in 0..300 {
            trade = match trade.plainer().find(|plain| *plain != Trade::default()) {
                Some(plain) => plain,
                None => return,
            };
        }
        panic!("{trade:?}");
    }
}
