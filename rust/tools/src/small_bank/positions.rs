//! The positions of a small bank, group by group.

use books::{Book, Row};
use std::collections::BTreeMap;

/// The longs and the shorts of some rows, in thousands.
#[derive(Clone, Copy, Debug, Default, PartialEq, Eq)]
pub struct Position {
    pub long: i128,
    pub short: i128,
}

impl Position {
    pub fn net_long(&self) -> i128 {
        0.max(self.long - self.short)
    }

    pub fn net_short(&self) -> i128 {
        0.max(self.short - self.long)
    }

    /// The net without its sign.
    pub fn net(&self) -> i128 {
        self.net_long() + self.net_short()
    }

    pub fn gross(&self) -> i128 {
        self.long + self.short
    }
}

/// Groups that have rows, in order, with their positions.
pub type Positions = BTreeMap<u8, Position>;

/// The positions of rows, whatever their days.
fn positions(rows: &[Row]) -> Positions {
    let mut positions = Positions::new();
    for row in rows {
        let position = positions.entry(row.group).or_default();
        position.long += i128::from(row.long);
        position.short += i128::from(row.short);
    }
    positions
}

/// What a small bank holds.
#[derive(Default)]
pub struct Holdings {
    /// Without gold.
    pub currencies: Positions,
    pub gold: Position,
    pub commodities: Positions,
}

impl Holdings {
    pub fn new(book: &Book) -> Holdings {
        let [_, _, exchange, commodities] = &book.classes;
        let mut currencies = positions(exchange);
        Holdings {
            gold: currencies.remove(&0).unwrap_or_default(),
            currencies,
            commodities: positions(commodities),
        }
    }
}

/// The sum of one figure of each group.
pub fn sum(positions: &Positions, figure: impl Fn(&Position) -> i128) -> i128 {
    positions.values().map(figure).sum()
}

#[cfg(test)]
mod tests {
    use super::*;

    #[test]
    fn a_position_is_net_on_one_side() {
        let position = |long, short| Position { long, short };
        for (position, net_long, net_short, gross) in [
            (position(5, 2), 3, 0, 7),
            (position(2, 5), 0, 3, 7),
            (position(2, 2), 0, 0, 4),
        ] {
            assert_eq!(position.net_long(), net_long);
            assert_eq!(position.net_short(), net_short);
            assert_eq!(position.net(), net_long + net_short);
            assert_eq!(position.gross(), gross);
        }
    }

    /// Catches days that keep rows apart, commodity 0 taken for gold, gold among the
    /// currencies, and a class that is another's.
    #[test]
    fn rows_are_added_up_by_group() {
        let row = |group, long, short| Row::default().with_group(group).with_sides(long, short);
        let mut book = Book::default();
        book.classes[0] = vec![row(1, 1_000, 0)];
        book.classes[1] = vec![row(1, 1_000, 0)];
        book.classes[2] = vec![row(31, 9, 0), row(0, 0, 4), row(31, 0, 2), row(0, 1, 0)];
        book.classes[3] = vec![row(0, 5, 0), row(0, 0, 8).with_days(36_000)];
        let holdings = Holdings::new(&book);
        let position = |long, short| Position { long, short };
        assert_eq!(holdings.currencies, Positions::from([(31, position(9, 2))]));
        assert_eq!(holdings.gold, position(1, 4));
        assert_eq!(holdings.commodities, Positions::from([(0, position(5, 8))]));
        assert_eq!(sum(&holdings.commodities, Position::gross), 13);
    }
}
