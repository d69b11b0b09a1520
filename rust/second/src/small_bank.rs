//! Banks with foreign exchange and commodities alone (document 02, P11): commodities by the
//! simplified approach (A.4, 12 and 13).

use crate::book::{contents, counts, good_rows, Class, Refusal, Row};
use crate::{figure, open, GROUPS};

/// The refusal, the two charges and their sum, in mils; all figures are zero on a refusal.
#[derive(Clone, Copy, Debug, Default, PartialEq, Eq)]
pub struct SmallBank {
    pub refusal: Refusal,
    pub exchange: u64,
    pub commodity: u64,
    pub total: u64,
}

/// The rows of a book without interest and equity, or why it is refused.
fn read(book: &[u8]) -> Result<Vec<Row>, Refusal> {
    contents(book)?;
    let [interest, equity, _, _] = counts(book);
    if interest > 0 || equity > 0 {
        return Err(Refusal::of(20));
    }
    good_rows(book)
}

/// The charge of one commodity, whatever the days of its rows.
fn simplified(rows: &[Row], group: usize) -> i128 {
    let own = rows
        .iter()
        .filter(|row| row.class == Class::Commodity && row.group == group);
    let net: i128 = own.clone().map(Row::net).sum();
    let gross: i128 = own.map(Row::amount).sum();
    // 15% of the net, long or short (A.4, 12), and 3% of longs plus shorts (A.4, 13).
    150_000 * net.abs() + 30_000 * gross
}

/// The charges of the rows of an accepted book.
fn charges(rows: &[Row]) -> SmallBank {
    let exchange = open::exchange(rows);
    let commodity = (0..GROUPS).map(|group| simplified(rows, group)).sum();
    SmallBank {
        refusal: Refusal::NONE,
        exchange: figure(exchange),
        commodity: figure(commodity),
        total: figure(exchange + commodity),
    }
}

/// The charges of a book of foreign exchange and commodities alone.
pub fn small_bank(book: &[u8]) -> SmallBank {
    match read(book) {
        Ok(rows) => charges(&rows),
        Err(refusal) => SmallBank {
            refusal,
            ..SmallBank::default()
        },
    }
}
