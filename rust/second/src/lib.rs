//! A second, independent calculation of document 01, to hold the proved one to.
//!
//! It is written for reading, not for speed: a book becomes a list of rows, each
//! currency, market or commodity filters its own rows out of that list, and a net
//! is one signed 128-bit number. It shares no table and no code with the library
//! that it is compared with.
//!
//! In brackets stands the paragraph of the Amendment that a rule comes from, as in
//! document 01: "A.1, 13" is paragraph 13 of section A.1. A kind, a band or days that no
//! accepted row has stop the calculation, so that nothing new is charged in silence.

mod bands;
mod book;
mod commodity;
mod comparisons;
mod dearest;
mod entries;
mod interest;
mod join;
mod kinds;
mod least_trade;
mod net;
mod net_and_offset;
mod offset;
mod open;
mod option_table;
mod options;
mod part;
mod report;
mod shortest;
mod small_bank;
mod table;
mod written;

pub use bands::{commodity_band, interest_band, interest_weight, zone_of_band};
pub use book::{check, Refusal};
pub use commodity::{commodity_ladder, CommodityLadder};
pub use comparisons::comparisons;
pub use dearest::{dearest, dearest_book, Dearest};
pub use interest::{interest_ladder, zones_used, InterestLadder};
pub use join::{join, Joined};
pub use least_trade::{charge_with, least_trade, LeastTrade};
pub use net::{net, netted, Netted};
pub use net_and_offset::{net_and_offset, net_and_offset_book};
pub use offset::{offset, offset_book, Offset};
pub use options::{options, options_book, Options};
pub use part::{part, Part};
pub use report::{charge, Report};
pub use shortest::{shortest, shortest_file, Shortest};
pub use small_bank::{small_bank, SmallBank};
pub use table::{read_table, table, Table, TABLE_BYTES};

/// Groups run from 0 to 31 in every class.
pub const GROUPS: usize = 32;

/// A figure as the calls give it. None is negative, and none comes near 2^64.
fn figure(value: i128) -> u64 {
    u64::try_from(value).expect("a figure lies between 0 and 2^64")
}
