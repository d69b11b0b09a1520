//! The lines of a small bank's charges.

use super::{amount, mils, sides};
use books::{Book, Row};
use second::SmallBank;
use std::collections::BTreeSet;

/// The charges of a book of some rows of foreign exchange and commodities.
fn charged(exchange: Vec<Row>, commodities: Vec<Row>) -> SmallBank {
    let mut book = Book::default();
    (book.classes[2], book.classes[3]) = (exchange, commodities);
    let charged = second::small_bank(&book.encode().unwrap());
    assert!(charged.refusal.accepted());
    charged
}

/// The rows of one group.
fn own(rows: &[Row], group: u8) -> Vec<Row> {
    let own = rows.iter().filter(|row| row.group == group);
    own.copied().collect()
}

/// The groups that have rows.
fn groups(rows: &[Row]) -> BTreeSet<u8> {
    rows.iter().map(|row| row.group).collect()
}

/// The sums of columns.
fn sums<const N: usize>(lines: &[[i128; N]]) -> [i128; N] {
    std::array::from_fn(|column| lines.iter().map(|line| line[column]).sum())
}

/// A currency's longs, shorts, net long and net short.
fn currency(rows: &[Row], group: u8) -> [i128; 4] {
    let (long, short) = sides(own(rows, group).iter());
    let less = long.min(short);
    [long, short, long - less, short - less]
}

/// The lines of the currencies, gold last (A.3, 12: gold is apart), and how the charge is made
/// up: the greater of net longs and net shorts, and gold, each charged as a book of its own.
fn exchange_lines(rows: &[Row]) -> (Vec<String>, String) {
    let line = |name: String, cells: [i128; 4]| format!("{name} {}", cells.map(amount).join(" "));
    let numbers: Vec<u8> = groups(rows)
        .into_iter()
        .filter(|group| *group > 0)
        .collect();
    let cells: Vec<[i128; 4]> = numbers.iter().map(|group| currency(rows, *group)).collect();
    let mut lines = vec!["currency long short net long net short".to_string()];
    let named = numbers.iter().zip(&cells);
    lines.extend(named.map(|(group, cells)| line(group.to_string(), *cells)));
    let all @ [_, _, long, short] = sums(&cells);
    lines.push(line("all".into(), all));
    lines.push(line("gold".into(), currency(rows, 0)));
    let side = if short > long { "short" } else { "long" };
    let foreign = rows.iter().filter(|row| row.group > 0);
    let foreign = charged(foreign.copied().collect(), vec![]).exchange;
    let gold = charged(own(rows, 0), vec![]).exchange;
    let parts = format!(
        "{} (8% of net {side}) + {} (8% of gold)",
        mils(foreign),
        mils(gold)
    );
    (lines, parts)
}

/// A commodity's longs, shorts, net, gross, and its charge as a book of its own.
fn commodity(rows: &[Row], group: u8) -> [i128; 5] {
    let own = own(rows, group);
    let (long, short) = sides(own.iter());
    let charge = charged(vec![], own).commodity;
    [
        long,
        short,
        (long - short).abs(),
        long + short,
        charge.into(),
    ]
}

/// The lines of the commodities, and how the charge is made up: 15%, 150,000 mils a unit, of
/// the nets (A.4, 12) and 3%, 30,000, of gross (A.4, 13).
fn commodity_lines(rows: &[Row]) -> (Vec<String>, String) {
    let line = |name: String, [amounts @ .., charge]: [i128; 5]| {
        let amounts: [i128; 4] = amounts;
        format!("{name} {} {}", amounts.map(amount).join(" "), mils(charge))
    };
    let cells = groups(rows).into_iter();
    let cells: Vec<(u8, [i128; 5])> = cells.map(|group| (group, commodity(rows, group))).collect();
    let mut lines = vec!["commodity long short net gross charge".to_string()];
    lines.extend(
        cells
            .iter()
            .map(|(group, cells)| line(group.to_string(), *cells)),
    );
    let figures: Vec<[i128; 5]> = cells.iter().map(|(_, cells)| *cells).collect();
    let all @ [_, _, net, gross, charge] = sums(&figures);
    lines.push(line("all".into(), all));
    let [of_net, of_gross] = [150_000 * net, 30_000 * gross];
    assert_eq!(of_net + of_gross, charge);
    let parts = format!(
        "{} (15% of net) + {} (3% of gross)",
        mils(of_net),
        mils(of_gross)
    );
    (lines, parts)
}

/// All lines of a small bank.
pub fn small_bank(book: &Book) -> Vec<String> {
    let [_, _, exchange, commodities] = &book.classes;
    let charged = charged(exchange.clone(), commodities.clone());
    let [fx, commodity, total] = [charged.exchange, charged.commodity, charged.total].map(mils);
    let (currency_lines, of_exchange) = exchange_lines(exchange);
    let (commodity_lines, of_commodity) = commodity_lines(commodities);
    let blank = || vec![String::new()];
    let title = "amounts in thousands, charges in currency units";
    [
        vec![
            format!("foreign exchange {fx}"),
            format!("commodity {commodity}"),
            format!("total {total}"),
        ],
        vec!["".into(), title.into(), "".into()],
        currency_lines,
        blank(),
        commodity_lines,
        blank(),
        vec![
            format!("foreign exchange {fx} = {of_exchange}"),
            format!("commodity {commodity} = {of_commodity}"),
            format!("total {total} = {fx} + {commodity}"),
        ],
    ]
    .concat()
}
