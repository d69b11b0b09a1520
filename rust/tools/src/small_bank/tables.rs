//! The positions of a small bank as tables.

use super::adding_up::simplified;
use super::positions::{sum, Holdings, Position, Positions};
use crate::text::{mils, table, whole};

/// A column: its title, its figure of a position, and how the figure is printed.
struct Column {
    title: &'static str,
    figure: fn(&Position) -> i128,
    print: fn(i128) -> String,
}

impl Column {
    /// A column of amounts.
    const fn amount(title: &'static str, figure: fn(&Position) -> i128) -> Column {
        Column {
            title,
            figure,
            print: whole,
        }
    }

    fn cell(&self, position: &Position) -> String {
        (self.print)((self.figure)(position))
    }
}

const CURRENCY: [Column; 4] = [
    Column::amount("long", |position| position.long),
    Column::amount("short", |position| position.short),
    Column::amount("net long", Position::net_long),
    Column::amount("net short", Position::net_short),
];

const COMMODITY: [Column; 5] = [
    Column::amount("long", |position| position.long),
    Column::amount("short", |position| position.short),
    Column::amount("net", Position::net),
    Column::amount("gross", Position::gross),
    Column {
        title: "charge",
        figure: simplified,
        print: mils,
    },
];

/// A line: its name, and a cell of each column.
fn line(name: &str, columns: &[Column], cell: impl Fn(&Column) -> String) -> Vec<String> {
    let cells = columns.iter().map(cell);
    [name.to_string()].into_iter().chain(cells).collect()
}

/// The titles, a line for each group, and the sums of the columns.
fn by_group(name: &str, columns: &[Column], positions: &Positions) -> Vec<Vec<String>> {
    let mut lines = vec![line(name, columns, |column| column.title.into())];
    for (group, position) in positions {
        let group = group.to_string();
        lines.push(line(&group, columns, |column| column.cell(position)));
    }
    let all = |column: &Column| (column.print)(sum(positions, column.figure));
    lines.push(line("all", columns, all));
    lines
}

/// The currencies that have rows, their sums, and below these gold.
pub fn currencies(holdings: &Holdings) -> String {
    let mut lines = by_group("currency", &CURRENCY, &holdings.currencies);
    let gold = |column: &Column| column.cell(&holdings.gold);
    lines.push(line("gold", &CURRENCY, gold));
    table(&lines)
}

/// The commodities that have rows, what each costs, and their sums.
pub fn commodities(holdings: &Holdings) -> String {
    let lines = by_group("commodity", &COMMODITY, &holdings.commodities);
    table(&lines)
}

#[cfg(test)]
mod tests {
    use super::*;

    fn position(long: i128, short: i128) -> Position {
        Position { long, short }
    }

    /// Catches nets that are summed with their signs, gold in the sums, and a currency that is
    /// left out because its net is zero.
    #[test]
    fn currencies_are_summed_without_gold() {
        let nets = [(1, (700, 0)), (9, (5, 5)), (31, (50, 1_000))];
        let nets = nets.map(|(group, (long, short))| (group, position(long, short)));
        let holdings = Holdings {
            currencies: Positions::from(nets),
            gold: position(0, 120),
            ..Holdings::default()
        };
        let expected = [
            "currency  long  short  net long  net short",
            "1          700      0       700          0",
            "9            5      5         0          0",
            "31          50  1,000         0        950",
            "all        755  1,005       700        950",
            "gold         0    120         0        120",
        ];
        let text = currencies(&holdings);
        assert_eq!(text.lines().collect::<Vec<_>>(), expected);
    }

    /// Catches a net of all commodities together, and 15% of gross or 3% of net.
    #[test]
    fn commodities_are_netted_one_by_one() {
        let holdings = Holdings {
            commodities: Positions::from([(0, position(10, 0)), (5, position(1_400, 1_600))]),
            ..Holdings::default()
        };
        let expected = [
            "commodity   long  short  net  gross       charge",
            "0             10      0   10     10    1,800.000",
            "5          1,400  1,600  200  3,000  120,000.000",
            "all        1,410  1,600  210  3,010  121,800.000",
        ];
        let text = commodities(&holdings);
        assert_eq!(text.lines().collect::<Vec<_>>(), expected);
    }

    #[test]
    fn a_bank_without_rows_has_sums_of_zero() {
        let none = Holdings::default();
        let squeezed = |line: &str| line.split_whitespace().collect::<Vec<_>>().join(" ");
        let below = |text: String| text.lines().skip(1).map(squeezed).collect::<Vec<_>>();
        assert_eq!(below(currencies(&none)), ["all 0 0 0 0", "gold 0 0 0 0"]);
        assert_eq!(below(commodities(&none)), ["all 0 0 0 0 0.000"]);
    }
}
