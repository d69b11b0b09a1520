//! The ladder of one currency: its figures are the library's, and its rows lead to them.

mod listed;
mod text;

use super::adding_up;
use super::steps::{amounts, cross_check, steps, weigh, Sides, Step};
use crate::lines::{hold, Line};
use books::Row;
use market_risk::{InterestLadder, Table};

pub use text::text;

/// A ladder whose figures agree with its bands.
pub struct Interest {
    pub group: u64,
    pub table: Table,
    /// The longs and shorts of each band, in thousands.
    pub amounts: [Sides; 15],
    /// The same times their weights.
    pub bands: [Sides; 15],
    pub steps: Vec<Step>,
    pub figures: InterestLadder,
    /// The lines by which it adds up.
    pub lines: Vec<Line>,
}

impl Interest {
    /// The ladder of amounts whose figures are known, or why it cannot be that.
    pub fn of(
        amounts: [Sides; 15],
        group: u64,
        table: &Table,
        figures: &InterestLadder,
        lines: Vec<Line>,
    ) -> Result<Interest, String> {
        let bands = weigh(&amounts, table);
        let (steps, rest) = steps(&bands, &table.per_cents());
        hold(cross_check(&bands, &steps, rest, figures).err(), &lines)?;
        Ok(Interest {
            group,
            table: *table,
            amounts,
            bands,
            steps,
            figures: *figures,
            lines,
        })
    }

    /// The ladder of a currency by its rows and the library's figures, or where they disagree.
    pub fn new(
        rows: &[Row],
        group: u64,
        table: &Table,
        figures: &InterestLadder,
    ) -> Result<Interest, String> {
        let lines = adding_up::interest(rows, group, table, figures);
        Interest::of(amounts(rows, group), group, table, figures, lines)
    }

    /// The bands that are shown: all, or those that have positions.
    pub fn shown(&self, hide_empty: bool) -> Vec<usize> {
        let empty = |band: &usize| self.amounts[*band] == (0, 0);
        (0..15)
            .filter(|band| !(hide_empty && empty(band)))
            .collect()
    }
}

#[cfg(test)]
mod tests {
    use super::*;
    use books::Book;

    /// The ladder as text.
    fn show(
        rows: &[Row],
        group: u64,
        table: &Table,
        figures: &InterestLadder,
    ) -> Result<String, String> {
        Interest::new(rows, group, table, figures).map(|ladder| text(&ladder, false))
    }

    /// Rows of currency 7 in which every step but that between zones 1 and 3, or 2 and 3,
    /// has a match.
    fn rows(days_270: u32, days_900: u32, days_1500: u32) -> Vec<Row> {
        let row = Row::default().with_group(7).with_kind(1).with_coupon(800);
        let bond = |days, long, short| row.with_days(days).with_sides(long, short);
        vec![
            bond(60, 10, 0),
            bond(60, 0, 4),
            bond(150, 0, 1),
            bond(270, days_270, 0),
            bond(600, 2, 0),
            bond(900, 0, days_900),
            bond(1500, days_1500, 0),
            bond(2880, 0, 5),
        ]
    }

    /// The library's figures of currency 7.
    fn library(rows: &[Row], table: &Table) -> InterestLadder {
        let mut book = Book::default();
        book.classes[0] = rows.to_vec();
        market_risk::interest_ladder(&book.encode().unwrap(), table, 7).unwrap()
    }

    /// Document 01's table, and one that has no figure of it.
    fn tables() -> [Table; 2] {
        let mut other = [0; 36];
        for band in 0..15 {
            other[2 * band] = 11 + 15 * band as u8;
        }
        other[30..].copy_from_slice(&[5, 35, 45, 55, 65, 95]);
        [Table::amendment(), Table::new(&other).unwrap()]
    }

    /// One figure of a ladder.
    type Figure = fn(&mut InterestLadder) -> &mut u64;

    /// Each figure of a ladder, by the name that its check has.
    const FIGURES: [(&str, Figure); 10] = [
        ("gross", |ladder| &mut ladder.gross),
        ("within bands", |ladder| &mut ladder.vertical),
        ("within zone 1", |ladder| &mut ladder.zones[0]),
        ("within zone 2", |ladder| &mut ladder.zones[1]),
        ("within zone 3", |ladder| &mut ladder.zones[2]),
        ("zones 1 and 2", |ladder| &mut ladder.zones_1_2),
        ("zones 2 and 3", |ladder| &mut ladder.zones_2_3),
        ("zones 1 and 3", |ladder| &mut ladder.zones_1_3),
        ("residual", |ladder| &mut ladder.residual),
        ("charge", |ladder| &mut ladder.charge),
    ];

    /// Catches a cross-check that is always true, is not made, or leaves a figure out.
    #[test]
    fn a_wrong_figure_of_the_library_is_named() {
        for rows in [rows(100, 6, 3), rows(10, 16, 13)] {
            for table in tables() {
                let right = library(&rows, &table);
                assert!(show(&rows, 7, &table, &right).is_ok());
                each_figure_is_named(&rows, &table, right);
                assert!(show(&rows, 7, &table, &InterestLadder::default()).is_err());
            }
        }
    }

    /// Makes each figure of a right ladder wrong, which must be told by its name.
    fn each_figure_is_named(rows: &[Row], table: &Table, right: InterestLadder) {
        for (name, figure) in FIGURES {
            for by in [1, 1 << 40] {
                let mut wrong = right;
                *figure(&mut wrong) += by;
                let told = show(rows, 7, table, &wrong).unwrap_err();
                assert!(told.starts_with(&format!("{name}: ")), "{name}: {told}");
                // A mil more lies within the bounds of the charge.
                let within = (name, by) == ("charge", 1);
                let adds_up = !told.contains("\ndoes not add up: ");
                assert_eq!(adds_up, within, "{name}: {told}");
            }
        }
    }

    /// Catches a ladder that is drawn by document 01's weights or per cents whatever is loaded.
    #[test]
    fn a_ladder_under_another_table_is_told() {
        let [amendment, other] = tables();
        let rows = rows(100, 6, 3);
        for (drawn, given) in [(amendment, other), (other, amendment)] {
            assert!(show(&rows, 7, &drawn, &library(&rows, &given)).is_err());
        }
        let mut mixed = *amendment.bytes();
        mixed[30..].copy_from_slice(&other.bytes()[30..]);
        let mixed = Table::new(&mixed).unwrap();
        let told = show(&rows, 7, &amendment, &library(&rows, &mixed)).unwrap_err();
        assert!(told.starts_with("charge: "), "{told}");
    }

    /// Catches a weight or a per cent that is printed as document 01 has it: band 3 bears 56
    /// basis points, 100 of it 560 currency units; within bands 4 at 26 bear 5%.
    #[test]
    fn what_is_printed_follows_the_table() {
        let [_, other] = tables();
        let rows = rows(100, 6, 3);
        let text = show(&rows, 7, &other, &library(&rows, &other)).unwrap();
        let squeezed = |line: &str| line.split_whitespace().collect::<Vec<_>>().join(" ");
        let lines: Vec<String> = text.lines().map(squeezed).collect();
        for line in [
            "1 3 181-360 181-360 0.56% 100 0",
            "3 560.0 0.0 0.0 560.0",
            "3 14 - over 7,200 2.21% 0 0",
            "within bands 10.4 5% 0.520",
        ] {
            assert!(
                lines.iter().any(|printed| printed == line),
                "{line}\n{text}"
            );
        }
        for per_cent in ["35%", "45%", "55%", "65%", "95%"] {
            assert!(text.contains(&format!(" {per_cent} ")), "{per_cent}");
        }
    }

    /// Catches bands that are drawn from other rows than the library was given.
    #[test]
    fn a_row_too_few_or_in_another_place_is_told() {
        let rows = rows(100, 6, 3);
        let table = Table::amendment();
        let right = library(&rows, &table);
        for at in 0..rows.len() {
            let mut fewer = rows.clone();
            fewer.remove(at);
            assert!(show(&fewer, 7, &table, &right).is_err(), "row {at}");
            let mut moved = rows.clone();
            moved[at].days += 1_000;
            assert!(show(&moved, 7, &table, &right).is_err(), "row {at}");
            let mut mirrored = rows.clone();
            mirrored[at] = mirrored[at].mirrored();
            assert!(show(&mirrored, 7, &table, &right).is_err(), "row {at}");
        }
    }
}
