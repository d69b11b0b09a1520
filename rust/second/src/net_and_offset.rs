//! Netting and then offsetting (document 02, P3): issues come first, and the legs are those of the
//! netted book. The Amendment allows both (A.1, 20 and 21) and does not say which comes first.

use crate::book::Refusal;
use crate::net::{netted, outcome, Netted};
use crate::offset::offset_book;

/// The netted book without its offsetting legs, or why there is none.
pub fn net_and_offset_book(book: &[u8]) -> Result<Vec<u8>, Refusal> {
    netted(book).and_then(|netted| offset_book(&netted))
}

/// Writes the netted book without its offsetting legs to the front of `out`; the bytes past it keep
/// their values. The comparisons are those of netting.
pub fn net_and_offset(book: &[u8], out: &mut [u8]) -> Netted {
    outcome(book, net_and_offset_book(book), out)
}
