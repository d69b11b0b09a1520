//! The ladders of a book that are wanted.

use super::commodity::{self, Commodity};
use super::interest::{self, Interest};
use super::listed::Listed;
use super::wanted::Wanted;
use books::Book;
use market_risk::{Refusal, Table};

/// The ladder of a currency or of a commodity.
pub enum Ladder {
    Currency(Box<Interest>),
    Commodity(Box<Commodity>),
}

impl Ladder {
    pub fn text(&self, hide_empty: bool) -> String {
        match self {
            Ladder::Currency(ladder) => interest::text(ladder, hide_empty),
            Ladder::Commodity(ladder) => commodity::text(ladder, hide_empty),
        }
    }

    pub fn listed(&self, hide_empty: bool) -> Listed {
        match self {
            Ladder::Currency(ladder) => ladder.listed(hide_empty),
            Ladder::Commodity(ladder) => ladder.listed(hide_empty),
        }
    }
}

/// Why no ladder is drawn: the book or its group is refused, or the rows lead to other figures than
/// the library's.
pub enum Why {
    Refused(Refusal),
    Differs(String),
}

/// A group as the library takes it: one too large for it is over 31 too.
fn number(group: u64) -> usize {
    usize::try_from(group).unwrap_or(usize::MAX)
}

/// The wanted ladders, currencies first. Only an accepted book says which it has.
pub fn drawn(bytes: &[u8], wanted: &Wanted, table: &Table) -> Result<Vec<Ladder>, Why> {
    let book = Book::decode(bytes).unwrap_or_default();
    let [currencies, commodities] = wanted.groups(&book);
    if wanted.of_book() {
        market_risk::check(bytes).map_err(Why::Refused)?;
    }
    let currency = |group: u64| {
        let figures = market_risk::interest_ladder(bytes, table, number(group));
        let figures = figures.map_err(Why::Refused)?;
        let ladder = Interest::new(&book.classes[0], group, table, &figures);
        let ladder = ladder.map(|ladder| Ladder::Currency(Box::new(ladder)));
        ladder.map_err(Why::Differs)
    };
    let commodity = |group: u64| {
        let figures = market_risk::commodity_ladder(bytes, number(group));
        let figures = figures.map_err(Why::Refused)?;
        let ladder = Commodity::new(&book.classes[3], group, &figures);
        let ladder = ladder.map(|ladder| Ladder::Commodity(Box::new(ladder)));
        ladder.map_err(Why::Differs)
    };
    let currencies = currencies.into_iter().map(currency);
    currencies
        .chain(commodities.into_iter().map(commodity))
        .collect()
}
