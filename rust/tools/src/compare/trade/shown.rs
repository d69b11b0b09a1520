//! A trade as it is printed.

use super::Trade;
use std::fmt;

impl fmt::Display for Trade {
    fn fmt(&self, out: &mut fmt::Formatter) -> fmt::Result {
        let Trade {
            group,
            band,
            side,
            limit,
            ..
        } = self;
        writeln!(
            out,
            "the least trade in currency {group}, band {band}, side {side}, for a limit of {limit}"
        )
    }
}
