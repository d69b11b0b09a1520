//! The least trade (document 02, P13) in the comparison: what a case asks, what is claimed of it, and what a
//! run has seen of it.

mod asked;
mod held;
mod laws;
mod least;
#[cfg(test)]
mod misread;
mod moved;
#[cfg(test)]
mod readings;
mod search;
mod seen;
mod shown;
mod sorts;
#[cfg(test)]
mod too_little;
mod turns;
#[cfg(test)]
mod wrong;

pub use asked::Trade;
pub use held::difference;
pub use laws::broken;
pub use least::LEAST;
#[cfg(test)]
pub use search::answer;
pub use seen::Seen;
