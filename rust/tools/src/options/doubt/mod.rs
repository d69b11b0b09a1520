//! What the library answers to options, held to what they give.

#[cfg(test)]
mod tests;

use super::ask::{name, Alone, Answer};
use super::deltas::book;
use super::greeks::{by_underlying, greeks, Greeks};
use crate::report;
use crate::text::{mils, whole};
use crate::written::unlike;
use books::options::names::class_names;
use books::options::OptionRow;
use books::Book;
use market_risk::{Report, Table};

/// Another length than the rows have, bytes that are no book, or other rows.
fn rows(options: &[OptionRow], answer: &Answer) -> Vec<String> {
    let (length, file) = (answer.told.length, &answer.file);
    if length != file.len() {
        let [told, own] = [length, file.len()].map(|length| whole(length as u64));
        return vec![format!(
            "the library tells of {told} bytes, by the options {own}"
        )];
    }
    let Some(written) = Book::decode(file) else {
        return vec!["the library's book has other counts than rows".into()];
    };
    let expected = book(options).classes.into_iter().enumerate();
    let of = |(class, rows): (usize, Vec<_>)| {
        unlike(
            ["written", "options"],
            class,
            &written.classes[class],
            &rows,
        )
    };
    expected.filter_map(of).collect()
}

/// A figure of the library's that is another by something else.
fn figure(name: &str, [library, other]: [i128; 2], by: &str) -> Option<String> {
    let [shown, expected] = [library, other].map(mils);
    (library != other).then(|| format!("{name} is by the library {shown}, by {by} {expected}"))
}

/// Gammas and vegas of the classes that are others by something else.
fn figures(whose: &str, library: [Greeks; 3], other: [Greeks; 3], by: &str) -> Vec<String> {
    let pairs = class_names().iter().zip(library.into_iter().zip(other));
    let of = |(class, (library, other)): (&&str, (Greeks, Greeks))| {
        let name = |of: &str| format!("{whose}{class} {of}");
        [
            figure(&name("gamma"), [library.gamma, other.gamma], by),
            figure(&name("vega"), [library.vega, other.vega], by),
        ]
    };
    pairs.flat_map(of).flatten().collect()
}

/// Gammas and vegas of an underlying alone that are others by its options.
fn alone(options: &[OptionRow], groups: &[Alone]) -> Vec<String> {
    let own = by_underlying(options);
    let of = |(underlying, answer): &Alone| {
        let whose = format!("of {} alone, ", name(underlying));
        let own = own.get(underlying).map(|own| greeks(own));
        figures(
            &whose,
            answer.greeks(),
            own.unwrap_or_default(),
            "its options",
        )
    };
    groups.iter().flat_map(of).collect()
}

/// The library's gammas and vegas of the underlyings, added up by class.
fn sums(groups: &[Alone]) -> [Greeks; 3] {
    let mut sums = [Greeks::default(); 3];
    for (_, answer) in groups {
        for (sum, own) in sums.iter_mut().zip(answer.greeks()) {
            *sum += own;
        }
    }
    sums
}

/// Charges that the library tells of its book and that are others where it charges the book, or that
/// cannot be those of the book.
fn charges(answer: &Answer, report: &Report) -> Vec<String> {
    let of = |((name, told), (_, charge)): ((&str, u64), (&str, u64))| {
        let pair = [told, charge].map(i128::from);
        figure(name, pair, "its charge of the book")
    };
    let told = answer.told.named().into_iter();
    let differing = told.zip(report.named()).filter_map(of);
    let book = Book::decode(&answer.file).unwrap_or_default();
    differing.chain(report::doubt(&book, report)).collect()
}

/// The library's charge of its book, where all that it answers to options can be so; else all that cannot.
pub fn hold(options: &[OptionRow], answer: &Answer, groups: &[Alone]) -> Result<Report, String> {
    let own = greeks(options);
    let mut told = [
        rows(options, answer),
        figures("", answer.greeks(), own, "the options"),
        alone(options, groups),
        figures("", answer.greeks(), sums(groups), "its underlyings alone"),
    ]
    .concat();
    let report = market_risk::charge(&answer.file, &Table::amendment());
    match &report {
        Ok(report) => told.extend(charges(answer, report)),
        Err(refusal) => told.push(format!("the library's book is {refusal}")),
    }
    match (report, &told[..]) {
        (Ok(report), []) => Ok(report),
        _ => Err(told.join("\n")),
    }
}
