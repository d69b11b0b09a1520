//! Options (document 02, P9) in the comparison: the two tables of a case, what is claimed of them, and
//! what a run has seen of them.

mod cuts;
mod exchanged;
mod fields;
mod greeks;
mod groups;
mod laws;
mod least;
#[cfg(test)]
mod misread;
mod one;
mod pairs;
#[cfg(test)]
mod reading_fields;
#[cfg(test)]
mod reading_greeks;
#[cfg(test)]
mod reading_refusals;
#[cfg(test)]
mod reading_rows;
#[cfg(test)]
mod readings;
mod seen;
#[cfg(test)]
mod seen_tests;
mod shown;
mod sorts;
mod tables;
#[cfg(test)]
mod too_little;
mod two;
mod underlyings;
#[cfg(test)]
mod wrong;
#[cfg(test)]
mod wrong_claims;
#[cfg(test)]
mod wrong_greeks;
#[cfg(test)]
mod wrong_refusals;
#[cfg(test)]
mod wrong_rows;

pub use laws::broken;
pub use least::LEAST;
pub use seen::Seen;
pub use tables::OptionTables;
