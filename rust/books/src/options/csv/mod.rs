//! An option table as CSV text, in all ways in which a book's may be written: one line an option, whole
//! numbers in the units of the bytes, so that a delta of 0.7210 is 7210; classes, rights and kinds by
//! name. Days of equity and foreign exchange may be empty; all else must be there.
//!
//! Nothing here decides whether a table is accepted.

#[cfg(test)]
mod tests;

use super::names::{class_name, class_names, class_of, kind_name, kind_of, right_name, right_of};
use super::names::{underlying, RIGHT_NAMES};
use super::OptionRow;
use crate::csv::{below, no_kind, none_of, Faults, Fields, Wrong};
use crate::number::column::{
    AMOUNT, ANY_DAYS, DELIVERY, DELTA, GAMMA, GROUP, NO_DAYS, VEGA, VOLATILITY,
};
use crate::number::{column, field, written, Column, Unit};

/// The header line as it is written.
pub const HEADER: &str = "class,group,right,kind,amount,delta,gamma,vega,volatility,days";

/// The kind of a class that is none of options.
const KIND: Column = column("kind", Unit::Plain, "0 to 255");

/// The options of a table and, for each of them, the line that it came from.
#[derive(Clone, Debug, Default, PartialEq, Eq)]
pub struct Parsed {
    pub options: Vec<OptionRow>,
    pub lines: Vec<usize>,
}

/// The kind of a class, by its name or number.
fn kind(class: u8, name: &str) -> Result<u8, Wrong> {
    match underlying(class) {
        Some(own) => kind_of(class, name).ok_or_else(|| no_kind(own, name)),
        None => field(&KIND, name),
    }
}

/// The column `days` of an option, by its class.
fn days_of(class: Option<u8>) -> &'static Column<'static> {
    match (class, class.and_then(underlying)) {
        (None, _) => &ANY_DAYS,
        (_, Some(3)) => &DELIVERY,
        _ => &NO_DAYS,
    }
}

/// The option of the fields of a line, in the order of the header; or all that is wrong.
fn option(fields: [&str; 10]) -> Result<OptionRow, Vec<Wrong>> {
    let [class, group, right, own, amount, delta, gamma, vega, volatility, days] = fields;
    let mut fields = Fields::default();
    let known = class_of(class).ok_or_else(|| none_of("class", class, class_names()));
    let class = fields.take(known);
    let group = fields.number(field(&GROUP, group));
    let known = right_of(right).ok_or_else(|| none_of("right", right, &RIGHT_NAMES));
    let right = fields.number(known);
    let kind = class.map(|class| fields.number(kind(class, own)));
    let option = OptionRow {
        class: class.unwrap_or_default(),
        group,
        right,
        kind: kind.unwrap_or_default(),
        amount: fields.number(field(&AMOUNT, amount)),
        delta: fields.number(field(&DELTA, delta)),
        gamma: fields.number(field(&GAMMA, gamma)),
        vega: fields.number(field(&VEGA, vega)),
        volatility: fields.number(field(&VOLATILITY, volatility)),
        days: fields.number(field(days_of(class), days)),
    };
    fields.made(Some(option))
}

/// Reads CSV text. Options keep their order. Of each wrong line every fault is told.
pub fn parse(text: &str) -> Result<Parsed, Faults> {
    let (lines, options) = below(HEADER, text, option)?.into_iter().unzip();
    Ok(Parsed { options, lines })
}

/// One option as a line, without its end.
pub fn line(option: &OptionRow) -> String {
    let OptionRow {
        group,
        amount,
        gamma,
        vega,
        days,
        ..
    } = option;
    let delta = written(&DELTA, option.delta);
    let volatility = written(&VOLATILITY, option.volatility);
    let (class, right) = (class_name(option.class), right_name(option.right));
    let kind = kind_name(option.class, option.kind);
    format!("{class},{group},{right},{kind},{amount},{delta},{gamma},{vega},{volatility},{days}")
}

/// Options as CSV text.
pub fn write(options: &[OptionRow]) -> String {
    let lines = [HEADER.to_string()].into_iter();
    let lines = lines.chain(options.iter().map(line));
    lines.map(|line| line + "\n").collect()
}
