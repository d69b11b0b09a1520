//! The tables that a run has seen: accepted, and refused in each way and place of the order.

use super::case::Case;
use books::tables::random::WAYS;
use books::tables::Table;
use books::Book;
use std::fmt;

/// The names of the ways to break one condition alone.
const NAMES: [&str; WAYS] = [
    "a weight that falls",
    "a weight above 2,000",
    "vertical above zone 1",
    "vertical above zone 2",
    "vertical above zone 3",
    "zone 1 above adjacent",
    "zone 2 above adjacent",
    "zone 3 above adjacent",
    "adjacent above 1-3",
    "1-3 above 100",
];

/// Counts of cases by their tables.
#[derive(Default)]
pub struct Tables {
    /// Cases with document 01's table.
    pub amendment: u64,
    /// Cases with another table that is accepted.
    pub others: u64,
    /// Those of them whose first book is accepted and has interest rows.
    pub charged: u64,
    /// Cases with a table refused with 18, and with 19.
    pub refused: [u64; 2],
    /// Tables refused with 19 for one condition alone.
    pub ways: [u64; WAYS],
    /// Cases refused with 18, and with 19, whose first book is refused as well.
    pub before_book: [u64; 2],
    /// Ladders refused with 10 whose table is refused as well.
    pub after_group: u64,
}

/// Which conditions a table breaks.
fn breaks(table: &Table) -> [bool; WAYS] {
    let (weights, zones) = (&table.weights, &table.zones);
    let mut breaks = [false; WAYS];
    breaks[0] = weights.windows(2).any(|pair| pair[0] > pair[1]);
    breaks[1] = weights.iter().any(|weight| *weight > 2_000);
    for (at, zone) in zones.iter().enumerate() {
        breaks[2 + at] = table.vertical > *zone;
        breaks[5 + at] = *zone > table.adjacent;
    }
    breaks[8] = table.adjacent > table.zones_1_3;
    breaks[9] = table.zones_1_3 > 100;
    breaks
}

/// The only condition that a table breaks, if it is one.
fn only_way(table: &[u8]) -> Option<usize> {
    let breaks = breaks(&Table::decode(table)?);
    let broken: Vec<usize> = (0..WAYS).filter(|way| breaks[*way]).collect();
    match broken[..] {
        [way] => Some(way),
        _ => None,
    }
}

/// Whether a book has interest rows.
fn has_interest(bytes: &[u8]) -> bool {
    Book::decode(bytes).is_some_and(|book| !book.classes[0].is_empty())
}

impl Tables {
    /// Counts a case, by the second calculation.
    pub fn count(&mut self, case: &Case) {
        let accepted = second::check(&case.a).accepted();
        match second::read_table(&case.table) {
            Ok(_) if case.table == second::table() => self.amendment += 1,
            Ok(_) => {
                self.others += 1;
                self.charged += u64::from(accepted && has_interest(&case.a));
            }
            Err(refusal) => {
                let number = usize::from(refusal.number == 19);
                self.refused[number] += 1;
                self.before_book[number] += u64::from(!accepted);
                self.after_group += u64::from(case.group > 31);
                if let Some(way) = only_way(&case.table) {
                    self.ways[way] += 1;
                }
            }
        }
    }

    /// Every count beside its name.
    pub fn named(&self) -> Vec<(String, u64)> {
        let ([length, conditions], [length_first, conditions_first]) =
            (self.refused, self.before_book);
        let plain = [
            ("document 01's table", self.amendment),
            ("other tables accepted", self.others),
            ("interest rows under other tables", self.charged),
            ("tables refused 18", length),
            ("tables refused 19", conditions),
            ("tables refused 18 before a bad book", length_first),
            ("tables refused 19 before a bad book", conditions_first),
            ("bad tables after a ladder's group", self.after_group),
        ];
        let plain = plain.map(|(name, count)| (name.to_string(), count));
        let ways = NAMES.iter().zip(self.ways);
        let ways = ways.map(|(name, count)| (format!("tables refused for {name} alone"), count));
        plain.into_iter().chain(ways).collect()
    }
}

impl fmt::Display for Tables {
    fn fmt(&self, out: &mut fmt::Formatter) -> fmt::Result {
        let ([length, conditions], [length_first, conditions_first]) =
            (self.refused, self.before_book);
        let (amendment, others, charged) = (self.amendment, self.others, self.charged);
        let group = self.after_group;
        let ways = NAMES.iter().zip(self.ways);
        let ways: Vec<String> = ways
            .map(|(name, count)| format!("{name} {count}"))
            .collect();
        write!(
            out,
            "tables: document 01's {amendment}, others accepted {others}, of these with interest \
             rows charged {charged}; refused 18: {length}, before a bad book {length_first}; 19: \
             {conditions}, before a bad book {conditions_first}; after a ladder's group {group}\n\
             tables refused for one condition alone: {}",
            ways.join(", ")
        )
    }
}

#[cfg(test)]
mod tests {
    use super::super::asked::Asked;
    use super::super::options::OptionTables;
    use super::super::trade::Trade;
    use super::*;
    use books::tables::random::broken;
    use books::{Random, Row};

    /// A book of one interest row, accepted or not.
    fn book(group: u8) -> Vec<u8> {
        let row = Row::default().with_group(group).with_kind(1);
        let mut book = Book::default();
        book.classes[0] = vec![row.with_sides(1, 0)];
        book.encode().unwrap()
    }

    /// What is counted of a case, without the ways.
    fn counted(a: Vec<u8>, table: &[u8], group: usize) -> Vec<u64> {
        let mut tables = Tables::default();
        tables.count(&Case {
            a,
            b: Vec::new(),
            table: table.to_vec(),
            group,
            room: 0,
            net_room: 0,
            both_room: 0,
            shortest_room: 0,
            dearest: Asked {
                rows: 0,
                most: 1,
                room: 0,
            },
            options: OptionTables::default(),
            trade: Trade::default(),
            offset_room: 0,
            order: 0,
        });
        let named = tables.named();
        named[..8].iter().map(|(_, count)| *count).collect()
    }

    /// Catches a case that is counted for another, and a refused book that counts as charged.
    #[test]
    fn cases_count_by_their_tables() {
        let (good, bad) = (book(7), book(32));
        let (amendment, own) = (second::table(), [0; 36]);
        let (short, high) = ([0; 35], [255; 36]);
        let cases = [
            (&good, &amendment[..], 0, [1, 0, 0, 0, 0, 0, 0, 0]),
            (&good, &own[..], 0, [0, 1, 1, 0, 0, 0, 0, 0]),
            (&bad, &own[..], 0, [0, 1, 0, 0, 0, 0, 0, 0]),
            (&vec![0; 8], &own[..], 0, [0, 1, 0, 0, 0, 0, 0, 0]),
            (&good, &short[..], 31, [0, 0, 0, 1, 0, 0, 0, 0]),
            (&bad, &short[..], 31, [0, 0, 0, 1, 0, 1, 0, 0]),
            (&good, &high[..], 31, [0, 0, 0, 0, 1, 0, 0, 0]),
            (&bad, &high[..], 32, [0, 0, 0, 0, 1, 0, 1, 1]),
        ];
        for (book, table, group, expected) in cases {
            assert_eq!(counted(book.clone(), table, group), expected);
        }
    }

    /// Catches a way that is counted for another, and one of two that is counted as if alone.
    #[test]
    fn broken_tables_count_by_their_way() {
        for (way, name) in NAMES.iter().enumerate() {
            let table = broken(&mut Random::of_case(5, way as u64), way);
            assert_eq!(only_way(&table.encode()), Some(way), "{name}");
        }
        assert_eq!(only_way(&second::table()), None);
        assert_eq!(only_way(&[255; 36]), None);
        assert_eq!(only_way(&[0; 35]), None);
    }
}
