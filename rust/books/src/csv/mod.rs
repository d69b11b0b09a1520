//! A book as CSV text, as people and spreadsheets write it: one line a row, classes and kinds by name in
//! any case. Of a floating-rate note the column `days` holds the days to the next fixing, and `coupon`
//! those to final maturity. An empty issue is 0, and so are days and coupon of the classes that have
//! none; all else must be there.
//!
//! `records` tells what a line may be, `separator` and `header` what a header.

mod encoding;
mod faults;
mod header;
mod records;
mod separator;

#[cfg(test)]
mod dialects;
#[cfg(test)]
mod tests;

use crate::names::{class_of, floating, kind_name, kind_of, kinds, CLASS_NAMES};
use crate::number::column::{
    ANY_COUPON, ANY_DAYS, COUPON, DAYS, DELIVERY, FINAL, FIXING, GROUP, ISSUE, LONG, NO_COUPON,
    NO_DAYS, SHORT, SOME_COUPON,
};
use crate::number::{field, written, Column};
use crate::{Book, Row};

pub use encoding::{text_byte, text_of, utf_16};
pub(crate) use faults::{shown, Fields};
pub use faults::{Faults, LineError, Wrong};

/// The header line as it is written.
pub const HEADER: &str = "class,group,kind,days,coupon,issue,long,short";

/// A book and, for each of its rows in file order, the line that it came from.
#[derive(Clone, Debug, Default, PartialEq, Eq)]
pub struct Parsed {
    pub book: Book,
    pub lines: Vec<usize>,
}

/// What is told of a name that is none of the known ones of its column.
pub(crate) fn none_of(column: &str, given: &str, known: &[&str]) -> Wrong {
    let (given, known) = (shown(given), known.join(", "));
    Wrong {
        column: Some(column.into()),
        what: format!("{column} is {given}, not one of {known}"),
    }
}

/// What is told of a kind that a class, 0 to 3, does not know.
pub(crate) fn no_kind(class: usize, given: &str) -> Wrong {
    let known: Vec<&str> = kinds(class).iter().map(|(_, name)| *name).collect();
    let Wrong { column, what } = none_of("kind", given, &known);
    let what = format!("{what} for {}", CLASS_NAMES[class]);
    Wrong { column, what }
}

/// The columns `days` and `coupon` of a row, by its class and kind as far as they are known.
fn terms(class: Option<usize>, kind: Option<u8>) -> [&'static Column<'static>; 2] {
    match (class, kind) {
        (Some(class), Some(kind)) if floating(class, kind) => [&FIXING, &FINAL],
        (Some(0), Some(_)) => [&DAYS, &COUPON],
        (Some(0), None) => [&DAYS, &SOME_COUPON],
        (Some(3), _) => [&DELIVERY, &NO_COUPON],
        (Some(_), _) => [&NO_DAYS, &NO_COUPON],
        (None, _) => [&ANY_DAYS, &ANY_COUPON],
    }
}

/// The class and the row of the fields of a line, in the order of the header; or all that is wrong.
fn row(fields: [&str; 8]) -> Result<(usize, Row), Vec<Wrong>> {
    let [class, group, kind, days, coupon, issue, long, short] = fields;
    let mut fields = Fields::default();
    let known = class_of(class).ok_or_else(|| none_of("class", class, &CLASS_NAMES));
    let class = fields.take(known);
    let group = fields.number(field(&GROUP, group));
    let known = |class| kind_of(class, kind).ok_or_else(|| no_kind(class, kind));
    let kind = class.and_then(|class| fields.take(known(class)));
    let [days_of, coupon_of] = terms(class, kind);
    let row = Row {
        group,
        kind: kind.unwrap_or_default(),
        days: fields.number(field(days_of, days)),
        coupon: fields.number(field(coupon_of, coupon)),
        issue: fields.number(field(&ISSUE, issue)),
        long: fields.number(field(&LONG, long)),
        short: fields.number(field(&SHORT, short)),
    };
    fields.made(class.map(|class| (class, row)))
}

/// The rows below a header, each read by itself from its fields in the order of this header, with their
/// lines; or every line that is wrong, each with all its faults.
pub(crate) fn below<const N: usize, T>(
    header: &str,
    text: &str,
    read: impl Fn([&str; N]) -> Result<T, Vec<Wrong>>,
) -> Result<Vec<(usize, T)>, Faults> {
    let (columns, records) = header::read(&header::names(header), text)?;
    let (mut rows, mut faults) = (Vec::new(), Faults::default());
    for record in records {
        let (line, fields) = match &record {
            Ok(record) => (record.line, columns.row(&record.fields)),
            Err(fault) => (fault.line, Err(fault.what.clone())),
        };
        let row = fields.map_err(|what| vec![what.into()]).and_then(&read);
        rows.extend(faults.of_line(line, row).map(|row| (line, row)));
    }
    faults.or(rows)
}

/// Reads CSV text. Rows keep their order within a class. Of each wrong line every fault is told.
pub fn parse(text: &str) -> Result<Parsed, Faults> {
    let mut parsed = Parsed::default();
    let mut numbers: [Vec<usize>; 4] = Default::default();
    for (number, (class, row)) in below(HEADER, text, row)? {
        parsed.book.classes[class].push(row);
        numbers[class].push(number);
    }
    parsed.lines = numbers.concat();
    Ok(parsed)
}

/// One row as a line, without its end.
pub fn line(class: usize, row: &Row) -> String {
    let Row {
        group,
        days,
        issue,
        long,
        short,
        ..
    } = row;
    let [_, coupon_of] = terms(Some(class), Some(row.kind));
    let coupon = written(coupon_of, row.coupon);
    let (class, kind) = (CLASS_NAMES[class], kind_name(class, row.kind));
    format!("{class},{group},{kind},{days},{coupon},{issue},{long},{short}")
}

/// A book as CSV text.
pub fn write(book: &Book) -> String {
    let mut text = format!("{HEADER}\n");
    for (class, rows) in book.classes.iter().enumerate() {
        for row in rows {
            text.push_str(&line(class, row));
            text.push('\n');
        }
    }
    text
}
