//! What a run has seen, so that it can be told from one that compared nothing.

use super::both::Both;
use super::case::Case;
use super::comparisons::Comparisons;
use super::dearest::Dearest;
use super::floating::Floating;
use super::net_joins::NetJoins;
use super::nets::Nets;
use super::offsets::Offsets;
use super::options::Seen;
use super::premises::Premises;
use super::shortest::Shown;
use super::small_banks::SmallBanks;
use super::tables::Tables;
use super::trade;
use std::fmt;

/// Counts of books, refusals and joins.
#[derive(Default)]
pub struct Tally {
    pub accepted: u64,
    /// Accepted first books that have rows: nothing is taken of the others.
    pub with_rows: u64,
    /// First books that are refused at a row after their first: by then rows were taken.
    pub after_first: u64,
    /// First books by the number of their refusal, 1 to 9 or 15.
    pub refused: [u64; 16],
    pub ladder_refused: u64,
    /// Interest ladders, under an accepted table, of currencies that use all three zones.
    pub three_zones: u64,
    /// Commodity ladders with amounts carried.
    pub carried: u64,
    /// Joins by the number of their refusal; 0 counts those that were made.
    pub joins: [u64; 16],
    pub of_second: u64,
    /// Of joins under an accepted table.
    pub premises: Premises,
    pub floating: Floating,
    pub tables: Tables,
    pub small_banks: SmallBanks,
    pub nets: Nets,
    pub comparisons: Comparisons,
    /// Of books and joins under an accepted table.
    pub net_joins: NetJoins,
    pub offsets: Offsets,
    pub both: Both,
    pub shown: Shown,
    pub dearest: Dearest,
    pub options: Seen,
    pub trade: trade::Seen,
}

impl Tally {
    /// Counts a case, by the second calculation.
    pub fn count(&mut self, case: &Case) {
        let refusal = second::check(&case.a);
        match refusal.number {
            0 => self.accepted += 1,
            number => self.refused[number as usize] += 1,
        }
        self.with_rows += u64::from(refusal.accepted() && case.a.len() > 8);
        self.after_first += u64::from(refusal.row > 0);
        self.floating.count(&case.a, &refusal);
        self.small_banks.count(&case.a, &refusal);
        self.nets.count(case);
        self.comparisons.count(case);
        self.offsets.count(case);
        self.both.count(case);
        self.shown.count(case);
        self.dearest.count(case);
        self.options.count(case);
        self.trade.count(case);
        self.ladder_refused += u64::from(case.group > 31);
        self.tables.count(case);
        let charged = second::read_table(&case.table).is_ok();
        if charged {
            self.net_joins.count(&case.a, &case.table);
        }
        let zones = second::zones_used(&case.a, case.group);
        self.three_zones += u64::from(charged && zones == [true; 3]);
        let carried = second::commodity_ladder(&case.a, case.group).carried;
        self.carried += u64::from(carried > 0);
        let mut out = vec![0; case.room];
        let joined = second::join(&case.a, &case.b, &mut out);
        self.joins[joined.refusal.number as usize] += 1;
        self.of_second += joined.refusal.book;
        out.truncate(joined.length as usize);
        if joined.refusal.accepted() {
            self.floating.count_join([&case.a, &case.b]);
            self.small_banks.count_join([&case.a, &case.b, &out]);
            if charged {
                self.premises.count([&case.a, &case.b, &out], &case.table);
                self.net_joins
                    .count_join([&case.a, &case.b, &out], &case.table);
            }
        }
    }

    /// Every count beside its name.
    pub fn named(&self) -> Vec<(String, u64)> {
        let numbered = |name: &'static str, counts: &[u64]| -> Vec<(String, u64)> {
            let counts = counts.iter().enumerate().skip(1);
            let named = counts.map(|(number, count)| (format!("{name} {number}"), *count));
            named.collect()
        };
        let mut counts = vec![
            ("books accepted".to_string(), self.accepted),
            ("books accepted with rows".to_string(), self.with_rows),
            (
                "books refused after their first row".into(),
                self.after_first,
            ),
            ("ladders refused 10".to_string(), self.ladder_refused),
            ("interest ladders with three zones".into(), self.three_zones),
            (
                "commodity ladders with amounts carried".into(),
                self.carried,
            ),
            ("joins made".to_string(), self.joins[0]),
            ("joins refused for the second book".into(), self.of_second),
        ];
        counts.extend(self.premises.named());
        counts.extend(self.floating.named());
        counts.extend(self.tables.named());
        counts.extend(self.small_banks.named());
        counts.extend(self.nets.named());
        counts.extend(self.comparisons.named());
        counts.extend(self.net_joins.named());
        counts.extend(self.offsets.named());
        counts.extend(self.both.named());
        counts.extend(self.shown.named());
        counts.extend(self.dearest.named());
        counts.extend(self.options.named());
        counts.extend(self.trade.named());
        counts.extend(numbered("books refused", &self.refused));
        counts.extend(numbered("joins refused", &self.joins));
        counts
    }
}

/// Counts beside their numbers.
fn numbered(counts: &[u64], numbers: impl Iterator<Item = usize>) -> String {
    let counts = numbers.map(|number| format!("{number}: {}", counts[number]));
    counts.collect::<Vec<_>>().join(", ")
}

impl fmt::Display for Tally {
    fn fmt(&self, out: &mut fmt::Formatter) -> fmt::Result {
        let refused = numbered(&self.refused, (1..=9).chain([15]));
        let not_joined = numbered(&self.joins, (1..=9).chain([11, 12, 15]));
        writeln!(out, "books accepted {}, refused {refused}", self.accepted)?;
        writeln!(
            out,
            "books accepted with rows {}, refused after their first row {}",
            self.with_rows, self.after_first
        )?;
        writeln!(out, "ladders refused 10: {}", self.ladder_refused)?;
        writeln!(
            out,
            "interest ladders with three zones {}, commodity ladders with amounts carried {}",
            self.three_zones, self.carried
        )?;
        writeln!(out, "joins made {}, {}", self.joins[0], self.premises)?;
        writeln!(out, "{}", self.floating)?;
        writeln!(out, "{}", self.tables)?;
        writeln!(out, "{}", self.small_banks)?;
        writeln!(out, "{}", self.nets)?;
        writeln!(out, "{}", self.comparisons)?;
        writeln!(out, "{}", self.net_joins)?;
        writeln!(out, "{}", self.offsets)?;
        writeln!(out, "{}", self.both)?;
        writeln!(out, "{}", self.shown)?;
        writeln!(out, "{}", self.dearest)?;
        writeln!(out, "{}", self.options)?;
        writeln!(out, "{}", self.trade)?;
        writeln!(
            out,
            "joins refused {not_joined}, for the second book {}",
            self.of_second
        )
    }
}

#[cfg(test)]
mod tests {
    use super::super::asked::Asked;
    use super::super::options::OptionTables;
    use super::*;
    use books::{Book, Row};

    /// Rows of a government bond in currency 7, by days, long and short.
    fn book(rows: &[(u16, u32, u32)]) -> Vec<u8> {
        let row = Row::default().with_group(7).with_kind(1).with_coupon(800);
        let rows = rows
            .iter()
            .map(|(days, long, short)| row.with_days(*days).with_sides(*long, *short));
        let mut book = Book::default();
        book.classes[0] = rows.collect();
        book.encode().unwrap()
    }

    /// What is counted of two books under a table.
    fn counted(a: &[u8], b: &[u8], table: &[u8]) -> Tally {
        let mut tally = Tally::default();
        tally.count(&Case {
            a: a.to_vec(),
            b: b.to_vec(),
            table: table.to_vec(),
            group: 7,
            room: 1_000,
            net_room: 1_000,
            offset_room: 1_000,
            both_room: 1_000,
            shortest_room: 1_000,
            dearest: Asked {
                rows: 2,
                most: 7,
                room: 1_000,
            },
            options: OptionTables::default(),
            trade: trade::Trade::default(),
            order: 0,
        });
        tally
    }

    /// Catches ladders and joins that count though their table is refused: nothing was charged.
    #[test]
    fn nothing_is_charged_under_a_refused_table() {
        let (near, all) = ([(270, 75, 0)], [(270, 75, 0), (900, 0, 30), (6000, 9, 0)]);
        let (near, all) = (book(&near), book(&all));
        let seen = |tally: Tally| [tally.three_zones, tally.premises.joins, tally.joins[0]];
        for refused in [vec![0; 35], vec![255; 36]] {
            assert_eq!(seen(counted(&all, &near, &refused)), [0, 0, 1]);
            assert_eq!(seen(counted(&near, &near, &refused)), [0, 0, 1]);
        }
        assert_eq!(seen(counted(&all, &near, &second::table())), [1, 0, 1]);
        assert_eq!(seen(counted(&near, &near, &second::table())), [0, 1, 1]);
    }

    /// Catches costs by another table than the case's: E4 is dearer joined under document 01's
    /// table, and as dear as the two with 0% within bands and 80% between zones 1 and 3.
    #[test]
    fn a_currency_is_dearer_by_the_table_of_its_case() {
        let (a, b) = (
            book(&[(270, 75, 0), (900, 0, 30)]),
            book(&[(900, 30, 0), (6000, 0, 10)]),
        );
        let mut table = second::table();
        assert_eq!(counted(&a, &b, &table).premises.dearer, 1);
        (table[30], table[35]) = (0, 80);
        assert_eq!(counted(&a, &b, &table).premises.dearer, 0);
        table[35] = 81;
        assert_eq!(counted(&a, &b, &table).premises.dearer, 1);
    }
}
