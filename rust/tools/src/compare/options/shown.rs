//! Option tables as they are printed.

use super::super::shown::hex;
use super::OptionTables;
use books::options::{decode, OptionRow};
use std::fmt;

/// The names of an option's fields, in the order of its numbers.
const FIELDS: &str = "class,group,right,kind,amount,delta,gamma,vega,volatility,days";

/// An option, number by number.
fn line(option: &OptionRow) -> String {
    let bytes = [option.class, option.group, option.right, option.kind].map(u32::from);
    let pairs = [
        option.delta,
        option.gamma,
        option.vega,
        option.volatility,
        option.days,
    ];
    let numbers = bytes.into_iter().chain([option.amount]);
    let numbers = numbers.chain(pairs.map(u32::from));
    let numbers: Vec<String> = numbers.map(|number| number.to_string()).collect();
    format!("{}\n", numbers.join(","))
}

/// A table in hex and, where its length agrees with its count, number by number.
fn show(name: &str, bytes: &[u8]) -> String {
    let options = match decode(bytes) {
        Some(options) => {
            let lines: String = options.iter().map(line).collect();
            format!("{FIELDS}\n{lines}")
        }
        None => "(the length does not agree with the count)\n".into(),
    };
    let (length, hex) = (bytes.len(), hex(bytes));
    format!("option table {name}, {length} bytes: {hex}\n{options}")
}

impl fmt::Display for OptionTables {
    fn fmt(&self, out: &mut fmt::Formatter) -> fmt::Result {
        let (a, b, room) = (show("A", &self.a), show("B", &self.b), self.room);
        writeln!(out, "{a}{b}options into {room} bytes")
    }
}
