//! The zone premises of joins: of all currencies, and of each by itself.

use second::GROUPS;
use std::fmt;

/// The zones, 1 to 3, that each currency uses.
pub type Zones = [[bool; 3]; GROUPS];

/// The zones of a book.
pub fn zones(book: &[u8]) -> Zones {
    std::array::from_fn(|group| second::zones_used(book, group))
}

/// Whether a currency that uses these zones uses at most two.
pub fn at_most_two(zones: &[bool; 3]) -> bool {
    zones.contains(&false)
}

/// What joins that were made have shown of them.
#[derive(Default)]
pub struct Premises {
    /// Joins with at most two zones in each currency.
    pub joins: u64,
    /// Currencies with rows in both books of a join that use at most two zones in it.
    pub currencies: u64,
    /// Those of them beside which another currency of the joined book uses three.
    pub beside_three: u64,
    /// Currencies that cost more in a joined book than in the two: the premises are for these.
    pub dearer: u64,
}

impl Premises {
    /// Counts a join under an accepted table: A, B and the joined book.
    pub fn count(&mut self, books: [&[u8]; 3], table: &[u8]) {
        self.count_zones(books.map(zones));
        let [a, b, joined] = books.map(|book| second::charge(book, table).generals);
        let dearer = |group: &usize| joined[*group] > a[*group] + b[*group];
        self.dearer += (0..GROUPS).filter(dearer).count() as u64;
    }

    /// Counts the premises that hold, by the zones of the three.
    fn count_zones(&mut self, [a, b, joined]: [Zones; 3]) {
        let in_each = joined.iter().all(at_most_two);
        let used = |zones: &[bool; 3]| zones.contains(&true);
        let own =
            |group: &usize| used(&a[*group]) && used(&b[*group]) && at_most_two(&joined[*group]);
        let currencies = (0..GROUPS).filter(own).count() as u64;
        self.joins += u64::from(in_each);
        self.currencies += currencies;
        self.beside_three += if in_each { 0 } else { currencies };
    }

    /// Every count beside its name.
    pub fn named(&self) -> [(String, u64); 4] {
        [
            ("joins under the zone premise", self.joins),
            (
                "currencies joined under their zone premise",
                self.currencies,
            ),
            (
                "currencies joined beside one with three zones",
                self.beside_three,
            ),
            ("currencies dearer when joined", self.dearer),
        ]
        .map(|(name, count)| (name.to_string(), count))
    }
}

impl fmt::Display for Premises {
    fn fmt(&self, out: &mut fmt::Formatter) -> fmt::Result {
        let (joins, currencies) = (self.joins, self.currencies);
        let (beside, dearer) = (self.beside_three, self.dearer);
        write!(
            out,
            "of these with at most two zones in each currency {joins}\n\
             currencies of both books with at most two zones joined {currencies}, beside one \
             with three {beside}; dearer joined, with three zones, {dearer}"
        )
    }
}

#[cfg(test)]
mod tests {
    use super::*;

    /// Zones of a book that uses these.
    fn with(used: &[(usize, [bool; 3])]) -> Zones {
        let mut zones = [[false; 3]; GROUPS];
        used.iter().for_each(|(group, own)| zones[*group] = *own);
        zones
    }

    /// Catches a premise that is counted for a currency of one book alone, for one that uses
    /// three zones itself, or beside one that uses two.
    #[test]
    fn a_currency_counts_by_its_own_zones() {
        let counted = |a: Zones, b: Zones, joined: Zones| {
            let mut premises = Premises::default();
            premises.count_zones([a, b, joined]);
            [premises.joins, premises.currencies, premises.beside_three]
        };
        let (one, two, three) = ([true, false, false], [true, true, false], [true; 3]);
        let none = with(&[]);
        assert_eq!(counted(none, none, none), [1, 0, 0]);
        let first = with(&[(0, one)]);
        assert_eq!(counted(first, none, first), [1, 0, 0]);
        assert_eq!(counted(none, first, first), [1, 0, 0]);
        assert_eq!(counted(first, first, first), [1, 1, 0]);
        let both = with(&[(0, two), (31, two)]);
        assert_eq!(counted(both, both, both), [1, 2, 0]);
        let last = with(&[(0, two), (31, three)]);
        assert_eq!(counted(both, both, last), [0, 1, 1]);
        let apart = with(&[(31, one)]);
        assert_eq!(counted(first, apart, last), [0, 0, 0]);
    }
}
