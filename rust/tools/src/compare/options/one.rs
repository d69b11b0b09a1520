//! The claims about the book of one option table: its rows are those of the options, within a unit; it is
//! accepted, and costs what is told.

use super::super::laws::FIGURES;
use super::laws::Answer;
use crate::calls::Calls;
use books::names::CLASS_NAMES;
use books::options::OptionRow;
use books::{Book, Row};

/// The report of a book under document 01's table.
pub fn report(calls: &dyn Calls, book: &[u8]) -> [u64; 75] {
    let (mut table, mut out) = ([0; 36], [0; 75]);
    calls.table(&mut table);
    calls.charge(book, &table, &mut out);
    out
}

/// The book is accepted, and is charged what is told.
fn costs(calls: &dyn Calls, answer: &Answer) -> Option<String> {
    let mut check = [0; 3];
    calls.check(answer.book(), &mut check);
    let report = report(calls, answer.book());
    if let Some(number) = [check[0], report[0]]
        .into_iter()
        .find(|number| *number != 0)
    {
        return Some(format!("the book is refused with {number}"));
    }
    let mut figures = FIGURES.iter().zip(report[3..].iter().zip(answer.charges()));
    let (name, (costs, told)) = figures.find(|(_, (costs, told))| *costs != told)?;
    Some(format!("{name} of the book is {costs}, and {told} is told"))
}

/// What of a row is not its option's.
fn unlike(option: &OptionRow, row: &Row) -> Option<String> {
    let fields = [row.days, row.coupon, row.issue];
    if (row.group, row.kind, fields) != (option.group, option.kind, [option.days, 0, 0]) {
        return Some("has other fields".into());
    }
    // Bought calls and sold puts are long.
    let (amount, other) = match option.right {
        0 | 3 => (row.long, row.short),
        _ => (row.short, row.long),
    };
    if other != 0 {
        return Some("is on the other side".into());
    }
    let exact = u64::from(option.amount) * u64::from(option.delta);
    let within = (exact..exact + 10_000).contains(&(10_000 * u64::from(amount)));
    (!within).then(|| format!("is of {amount} for {exact} ten-thousandths"))
}

/// The rows of each class are those of its options that have a delta, in order.
fn rows(options: &[OptionRow], book: &[u8]) -> Option<String> {
    let book = Book::decode(book).unwrap_or_default();
    (1..).zip(&book.classes).find_map(|(class, rows)| {
        let name = CLASS_NAMES[usize::from(class) - 1];
        let own = options.iter().filter(|option| option.class == class);
        let own: Vec<&OptionRow> = own.filter(|option| option.delta > 0).collect();
        if own.len() != rows.len() {
            let (own, rows) = (own.len(), rows.len());
            return Some(format!(
                "{own} options with a delta have {rows} rows of {name}"
            ));
        }
        let mut pairs = own.iter().zip(rows).enumerate();
        pairs.find_map(|(at, (option, row))| {
            let what = unlike(option, row)?;
            Some(format!("row {at} of {name} {what}"))
        })
    })
}

/// What of them an accepted table breaks, in words.
pub fn broken(calls: &dyn Calls, options: &[OptionRow], answer: &Answer) -> Option<String> {
    rows(options, answer.book()).or_else(|| costs(calls, answer))
}
