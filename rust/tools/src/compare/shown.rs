//! A case as it is printed: its numbers, its table, its books, its option tables and its trade.

use super::asked::Asked;
use super::case::Case;
use books::tables::{text, Table};
use books::{csv, Book};
use std::fmt;

/// A file in hex and, where it has rows, as CSV.
fn show(name: &str, bytes: &[u8]) -> String {
    let rows = Book::decode(bytes).map(|book| csv::write(&book));
    let rows = rows.unwrap_or_else(|| "(the length does not agree with the counts)\n".into());
    format!("book {name}, {} bytes: {}\n{rows}", bytes.len(), hex(bytes))
}

/// Some bytes in hex.
pub fn hex(bytes: &[u8]) -> String {
    bytes.iter().map(|byte| format!("{byte:02x}")).collect()
}

/// A table in hex and, where it has 36 bytes, as text; document 01's by its name.
fn show_table(bytes: &[u8]) -> String {
    if bytes == second::table() {
        return "document 01's table\n".into();
    }
    let text = Table::decode(bytes).map(|table| text::write(&table));
    let text = text.unwrap_or_default();
    format!("table, {} bytes: {}\n{text}", bytes.len(), hex(bytes))
}

impl fmt::Display for Asked {
    fn fmt(&self, out: &mut fmt::Formatter) -> fmt::Result {
        let Asked { rows, most, room } = self;
        writeln!(
            out,
            "the dearest book of {rows} rows of at most {most}, into {room} bytes"
        )
    }
}

impl fmt::Display for Case {
    fn fmt(&self, out: &mut fmt::Formatter) -> fmt::Result {
        let (group, room) = (self.group, self.room);
        let (net, offset, both) = (self.net_room, self.offset_room, self.both_room);
        let (shortest, asked) = (self.shortest_room, &self.dearest);
        let (options, trade) = (&self.options, &self.trade);
        let (a, b, table) = (
            show("A", &self.a),
            show("B", &self.b),
            show_table(&self.table),
        );
        write!(
            out,
            "group {group}, outputs of {room} bytes to join, {net} to net, {offset} to offset, {both} \
             for both and {shortest} to show the refusal\n{table}{a}{b}{options}{trade}{asked}"
        )
    }
}

#[cfg(test)]
mod tests {
    use super::*;

    #[test]
    fn a_case_is_shown_in_hex_and_as_csv() {
        let mut case = Case::new(1, 1);
        case.a = vec![0; 8];
        case.b = vec![1, 2];
        let text = case.to_string();
        assert!(text.contains("book A, 8 bytes: 0000000000000000\nclass,group,"));
        assert!(text.contains("book B, 2 bytes: 0102\n(the length"));
    }

    /// Catches numbers of the dearest book that are not printed, or in each other's place.
    #[test]
    fn what_is_asked_of_the_dearest_book_is_shown_last() {
        let mut case = Case::new(1, 1);
        case.dearest = Asked {
            rows: 3,
            most: 100,
            room: 56,
        };
        let text = case.to_string();
        let last = "\nthe dearest book of 3 rows of at most 100, into 56 bytes\n";
        assert!(text.ends_with(last), "{text}");
    }

    /// Catches option tables that are not printed, or with their fields exchanged.
    #[test]
    fn option_tables_are_shown_in_hex_and_numbers() {
        let mut case = Case::new(1, 1);
        case.options.a = (1..=18).collect();
        case.options.a.splice(..0, [1, 0]);
        case.options.b = vec![7];
        case.options.room = 23;
        let text = case.to_string();
        let hex = "0100010203040506070809";
        assert!(text.contains(&format!("\noption table A, 20 bytes: {hex}")));
        let fields = "class,group,right,kind,amount,delta,gamma,vega,volatility,days";
        let numbers = "1,2,3,4,134678021,2569,3083,3597,4111,4625";
        assert!(text.contains(&format!("\n{fields}\n{numbers}\n")), "{text}");
        let second = "option table B, 1 bytes: 07\n(the length does not agree with the count)\n";
        let room = "options into 23 bytes\nthe least trade ";
        assert!(text.contains(&format!("\n{second}{room}")), "{text}");
    }

    /// Catches a table that is not printed, or printed with its fields exchanged.
    #[test]
    fn a_table_is_shown_by_name_or_in_hex_and_numbers() {
        let mut case = Case::new(1, 1);
        case.table = second::table().to_vec();
        assert!(case.to_string().contains("\ndocument 01's table\nbook A, "));
        case.table[32] = 31;
        let shown = case.to_string();
        assert!(shown.contains("\ntable, 36 bytes: 000014002800"), "{shown}");
        assert!(shown.contains("\nweights 0 20 40 "), "{shown}");
        let per_cents =
            "\nvertical 10\nzone-1 40\nzone-2 31\nzone-3 30\nadjacent 40\nzones-1-3 100\n";
        assert!(shown.contains(per_cents), "{shown}");
        case.table = vec![1, 2];
        let shown = case.to_string();
        assert!(
            shown.contains("\ntable, 2 bytes: 0102\nbook A, "),
            "{shown}"
        );
    }
}
