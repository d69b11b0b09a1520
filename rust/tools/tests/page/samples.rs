//! The samples whose pages are read, and what commands print of them.

use super::{parse, squeezed, Node};
use crate::common::prints;

/// Samples with each class, with several currencies, with issues, and with nothing.
pub const SAMPLES: [&str; 7] = [
    "mixed",
    "steps",
    "treasury",
    "small-bank",
    "netting",
    "offsetting",
    "empty",
];

/// The page of a book.
pub fn page(book: &str) -> Node {
    parse(&prints(&["html", book, "-o", "-"]))
}

/// The lines that a command prints, with one space between words.
pub fn lines(words: &[&str]) -> Vec<String> {
    prints(words).lines().map(squeezed).collect()
}
