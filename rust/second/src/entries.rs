//! Results as the calls lay them out: number, row, book, and then the figures.

use crate::{CommodityLadder, InterestLadder, Joined, Netted, Offset, Refusal, Report};
use crate::{Dearest, LeastTrade, Options, Part, Shortest, SmallBank};

/// A refusal and figures, of which there must be as many as the call gives.
fn laid_out<const N: usize>(refusal: Refusal, figures: &[u64]) -> [u64; N] {
    let entries = [&refusal.entries(), figures].concat();
    entries.try_into().expect("as many entries as the call has")
}

impl Refusal {
    /// Number, row, book.
    pub fn entries(&self) -> [u64; 3] {
        [self.number, self.row, self.book]
    }
}

impl Part {
    /// The refusal, the start and the length.
    pub fn entries(&self) -> [u64; 5] {
        laid_out(self.refusal, &[self.start, self.length])
    }
}

impl Report {
    /// The refusal, the six charges, the total, the rows taken, and the charges of each
    /// currency: 32 specific and 32 general.
    pub fn entries(&self) -> [u64; 75] {
        let figures = [
            self.interest_specific,
            self.interest_general,
            self.equity_specific,
            self.equity_general,
            self.exchange,
            self.commodity,
            self.total,
            self.taken,
        ];
        let lists = [&figures[..], &self.specifics, &self.generals];
        laid_out(self.refusal, &lists.concat())
    }
}

impl InterestLadder {
    /// The refusal, gross, the seven match sums, the residual and the charge.
    pub fn entries(&self) -> [u64; 13] {
        let figures = [
            self.gross,
            self.vertical,
            self.zone_1,
            self.zone_2,
            self.zone_3,
            self.zones_1_2,
            self.zones_2_3,
            self.zones_1_3,
            self.residual,
            self.charge,
        ];
        laid_out(self.refusal, &figures)
    }
}

impl CommodityLadder {
    /// The refusal, matches, carried, residual and charge.
    pub fn entries(&self) -> [u64; 7] {
        let figures = [self.matches, self.carried, self.residual, self.charge];
        laid_out(self.refusal, &figures)
    }
}

impl Joined {
    /// The refusal and the length.
    pub fn entries(&self) -> [u64; 4] {
        laid_out(self.refusal, &[self.length])
    }
}

impl Netted {
    /// The refusal, the length and the comparisons.
    pub fn entries(&self) -> [u64; 5] {
        laid_out(self.refusal, &[self.length, self.comparisons])
    }
}

impl Offset {
    /// The refusal and the length.
    pub fn entries(&self) -> [u64; 4] {
        laid_out(self.refusal, &[self.length])
    }
}

impl Shortest {
    /// The refusal, the length, and 1 where the book is accepted.
    pub fn entries(&self) -> [u64; 5] {
        laid_out(self.refusal, &[self.length, self.accepted.into()])
    }
}

impl Dearest {
    /// The refusal, the length and the total.
    pub fn entries(&self) -> [u64; 5] {
        laid_out(self.refusal, &[self.length, self.total])
    }
}

impl LeastTrade {
    /// The refusal, 1 where there is an amount, and the amount.
    pub fn entries(&self) -> [u64; 5] {
        laid_out(self.refusal, &[self.found.into(), self.amount])
    }
}

impl SmallBank {
    /// The refusal, foreign exchange, commodities and the total.
    pub fn entries(&self) -> [u64; 6] {
        laid_out(self.refusal, &[self.exchange, self.commodity, self.total])
    }
}

impl Options {
    /// The refusal, the length, three gammas, three vegas, the six charges of the book and its total.
    pub fn entries(&self) -> [u64; 17] {
        let figures = [&[self.length][..], &self.gammas, &self.vegas, &self.charges];
        laid_out(self.refusal, &figures.concat())
    }
}
