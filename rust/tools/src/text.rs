//! Numbers with separators, and tables of text: the bindings' own, and what the tool adds to them.

pub use market_risk::text::{mils, places, table, weighted, whole};

/// The most columns that a ladder and the lines by which figures add up may take.
pub const COLUMNS: usize = 100;

/// A table below a line of titles.
pub fn titled(titles: &[&str], lines: impl Iterator<Item = Vec<String>>) -> String {
    let titles = titles.iter().map(|title| title.to_string()).collect();
    table(&[titles].into_iter().chain(lines).collect::<Vec<_>>())
}
