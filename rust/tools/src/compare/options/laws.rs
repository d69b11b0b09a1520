//! The claims about options (document 02, P9) on one case, by the library's own figures.

use super::super::case::Case;
use super::super::laws::FIGURES;
use super::fields::refusal;
use super::{exchanged, groups, one, two};
use crate::calls::Calls;
use books::options::{decode, OptionRow, OPTION_BYTES};

/// What the call gives of a table, with room for a row of each option.
pub struct Answer {
    entries: [u64; 17],
    out: Vec<u8>,
}

impl Answer {
    /// What a calculation answers.
    pub fn of(calls: &dyn Calls, table: &[u8]) -> Answer {
        let mut answer = Answer {
            entries: [0; 17],
            out: vec![0; 8 + 16 * (table.len() / OPTION_BYTES)],
        };
        calls.options(table, &mut answer.out, &mut answer.entries);
        answer
    }

    /// The number of a refusal and its row.
    pub fn refusal(&self) -> [u64; 2] {
        [self.entries[0], self.entries[1]]
    }

    /// Gamma and vega, each of equity, foreign exchange and commodities.
    pub fn greeks(&self) -> [u64; 6] {
        std::array::from_fn(|at| self.entries[4 + at])
    }

    /// The six charges of the written book, and its total.
    pub fn charges(&self) -> [u64; 7] {
        std::array::from_fn(|at| self.entries[10 + at])
    }

    /// Gamma, vega and the charges, beside their names.
    pub fn named(&self) -> Vec<(&'static str, u64)> {
        let names = GREEKS.into_iter().chain(FIGURES);
        names.zip(self.entries[4..].iter().copied()).collect()
    }

    /// The written book, or nothing where it is told to be longer than the output.
    pub fn book(&self) -> &[u8] {
        self.out.get(..self.entries[3] as usize).unwrap_or(&[])
    }
}

/// The names of gamma and vega, in the order of the entries.
pub const GREEKS: [&str; 6] = [
    "gamma of equity",
    "gamma of foreign exchange",
    "gamma of commodities",
    "vega of equity",
    "vega of foreign exchange",
    "vega of commodities",
];

/// A table with room for its book is refused just when its length, its count or a field says so.
pub fn refused(answer: &Answer, table: &[u8]) -> Option<String> {
    let ([number, row], expected) = (answer.refusal(), refusal(table));
    let [wanted, place] = expected;
    (answer.refusal() != expected).then(|| {
        format!(
            "with room for it, a table gives {number} in row {row}, not {wanted} in row {place}"
        )
    })
}

/// The options of a table that is accepted.
fn accepted(answer: &Answer, table: &[u8]) -> Option<Vec<OptionRow>> {
    decode(table).filter(|_| answer.refusal() == [0, 0])
}

/// What of them a case breaks, in words.
pub fn broken(calls: &dyn Calls, case: &Case) -> Option<String> {
    let tables = &case.options;
    let [a, b] = [&tables.a, &tables.b].map(|table| Answer::of(calls, table));
    let of_first = || {
        let options = accepted(&a, &tables.a)?;
        one::broken(calls, &options, &a)
            .or_else(|| exchanged::broken(calls, &options, &a))
            .or_else(|| groups::broken(calls, &options, &a))
    };
    let told = refused(&a, &tables.a)
        .or_else(|| refused(&b, &tables.b))
        .or_else(of_first)
        .or_else(|| two::broken(calls, tables, [&a, &b]));
    Some(format!("options: {}", told?))
}
