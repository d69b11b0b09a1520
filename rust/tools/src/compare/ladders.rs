//! The adding-up of both ladders (document 02, P8) on one case: the library's own figures,
//! held to the rows of the first book.

use super::case::Case;
use crate::calls::Calls;
use crate::ladder::adding_up::{self, Line};
use books::Book;
use market_risk::{CommodityLadder, InterestLadder, Table};

/// The figures of a currency, if the call is accepted.
fn interest_ladder(calls: &dyn Calls, case: &Case) -> Option<InterestLadder> {
    let mut out = [0; 13];
    calls.interest_ladder(&case.a, &case.table, case.group, &mut out);
    InterestLadder::of(&out).ok()
}

/// The figures of a commodity, if the call is accepted.
fn commodity_ladder(calls: &dyn Calls, case: &Case) -> Option<CommodityLadder> {
    let mut out = [0; 7];
    calls.commodity_ladder(&case.a, case.group, &mut out);
    CommodityLadder::of(&out).ok()
}

/// The first line of a ladder that does not hold.
fn first(whose: &str, group: u64, lines: &[Line]) -> Option<String> {
    let told = adding_up::broken(lines).next()?;
    Some(format!("the ladder of {whose} {group} {told}"))
}

/// What of the adding-up a case breaks, in words.
pub fn broken(calls: &dyn Calls, case: &Case) -> Option<String> {
    let [interest, _, _, commodity] = Book::decode(&case.a)?.classes;
    let group = case.group as u64;
    let of_currency = || {
        let ladder = interest_ladder(calls, case)?;
        let table = Table::new(&case.table).ok()?;
        let lines = adding_up::interest(&interest, group, &table, &ladder);
        first("currency", group, &lines)
    };
    let of_commodity = || {
        let ladder = commodity_ladder(calls, case)?;
        let lines = adding_up::commodity(&commodity, group, &ladder);
        first("commodity", group, &lines)
    };
    of_currency().or_else(of_commodity)
}
