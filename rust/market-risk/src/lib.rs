//! Safe Rust over the proved market-risk library.
//!
//! A book is the bytes of document 01's book file; [`Book`] builds one of rows. Each call answers with its figures,
//! or with the [`Refusal`] that says who is told no and why. A charge, an interest ladder
//! and the least trade that brings a currency within its limit are computed under a [`Table`] of
//! weights and per cents. Options are charged from a table of their own, by [`options`].
//!
//! ```
//! use market_risk::{charge, interest_ladder, Book, InterestKind, Position, Row, Table};
//! // Government bonds of currency 7, coupon 8%, amounts in thousands.
//! let bond = |days, position| Row::Interest {
//!     currency: 7,
//!     kind: InterestKind::Government,
//!     days,
//!     coupon: 800,
//!     issue: 0,
//!     position,
//! };
//! let book = Book::of([
//!     bond(270, Position::Long(75)),
//!     bond(1_080, Position::Short(30)),
//!     bond(2_880, Position::Long(14)),
//! ])?;
//! let (bytes, table) = (book.bytes()?, Table::amendment());
//! let report = charge(bytes, &table)?;
//! assert_eq!(report.total, 735_000);
//! println!("{report}\n");
//! println!("{}", interest_ladder(bytes, &table, 7)?);
//! # Ok::<(), market_risk::Refusal>(())
//! ```
//!
//! It prints
//!
//! ```text
//! interest specific    0.000
//! interest general   735.000
//! equity specific      0.000
//! equity general       0.000
//! foreign exchange     0.000
//! commodity            0.000
//! total              735.000
//!
//! gross          1,575.0
//! within bands       0.0
//! within zone 1      0.0
//! within zone 2      0.0
//! within zone 3      0.0
//! zones 1 and 2    525.0
//! zones 2 and 3      0.0
//! zones 1 and 3      0.0
//! residual         525.0
//! charge         735.000
//! ```
//!
//! Charges are in mils, thousandths of the currency unit; as text they are in units. The module [`raw`] has the
//! same calls with the results of the C interface, entry by entry. No call makes a buffer beyond the largest
//! accepted book, [`MOST_BYTES`], whatever it is given.

#![warn(missing_docs)]

mod book;
mod charge;
mod commodity_ladder;
mod dearest;
mod interest_ladder;
mod join;
mod least_trade;
mod net;
mod net_and_offset;
mod offset;
mod options;
mod part;
pub mod raw;
mod refusal;
mod row;
mod shortest;
mod shown;
mod small_bank;
mod table;
pub mod text;

pub use book::{Book, MOST_BYTES, MOST_ROWS};
pub use charge::{charge, Report};
pub use commodity_ladder::{commodity_ladder, CommodityLadder};
pub use dearest::{dearest, dearest_book, Dearest};
pub use interest_ladder::{interest_ladder, InterestLadder};
pub use join::{join, joined};
pub use least_trade::{least_trade, Side};
pub use net::{net, netted, Netted};
pub use net_and_offset::{net_and_offset, net_and_offset_book};
pub use offset::{offset, offset_book};
pub use options::{options, options_book, ByClass, Options};
pub use part::part;
pub use refusal::Refusal;
pub use row::{EquityKind, InterestKind, Position, Row, GOLD};
pub use shortest::{shortest, shortest_file, Shortest};
pub use small_bank::{small_bank, SmallBank};
pub use table::{PerCents, Table};

/// Whether a book is accepted.
///
/// ```
/// assert!(market_risk::check(&[0; 8]).is_ok());
/// assert_eq!(market_risk::check(&[0; 7]).unwrap_err().number, 1);
/// ```
pub fn check(book: &[u8]) -> Result<(), Refusal> {
    let mut out = [0; 3];
    raw::check(book, &mut out);
    Refusal::of(&out)
}
