//! `options`: a table of options by the delta-plus method.

mod ask;
mod deltas;
mod doubt;
mod fault;
mod greeks;
mod limits;
mod show;

use crate::cli::{no, print, Args, Choice, Command, Outcome, Part, Value};
use crate::files::{apart, input};
use crate::load::{of_options, read_options, Given};
use crate::written::{self, length_line, Out};
use ask::{of_table, of_underlyings};
use books::options::{csv, decode};
use doubt::hold;

pub const COMMAND: Command = Command {
    name: "options",
    brief: "what options cost: the book of their deltas, gamma and vega",
    forms: &["TABLE [-o FILE [--csv]]"],
    about: &[
        Part::Text(
            "Charges a table of options on equity, foreign exchange and commodities by the \
             delta-plus method, in currency units, to the mil. TABLE is bytes, or CSV text \
             with the columns",
        ),
        Part::Lines(&["class,group,right,kind,amount,delta,gamma,vega,volatility,days"]),
        Part::Text(
            "as market-risk pack --help tells, which pack --options makes into bytes. It prints",
        ),
        Part::Words(&[
            (
                "deltas",
                "the book of the deltas: each option gives a row of amount times delta, \
                 rounded up, long for bought calls and sold puts, short for bought puts and \
                 sold calls; an option of delta 0 gives none",
            ),
            (
                "gamma and vega",
                "of each underlying, a class and group, and of each class. Bought options \
                 count as positive and sold ones as negative: a gamma is charged where the \
                 sum of an underlying is below zero, a vega by the sum without its sign",
            ),
            (
                "charges",
                "the charges of the book, as market-risk report prints them",
            ),
            (
                "whole",
                "the whole charge: the book's total, gamma and vega, which are in none of the \
                 book's charges",
            ),
        ]),
        Part::Text(
            "A refused table is explained in words, with the fields of its option, and the \
             exit status is 1:",
        ),
        Part::Words(&[
            (
                "16",
                "more than 1,000 options, or another length than that of its count",
            ),
            (
                "17",
                "an option with a field out of its range; the first such option is told",
            ),
        ]),
        Part::Text(
            "All figures are the proved library's; those of an underlying are its answer to a \
             table of that underlying's options alone. Rows, gamma and vega are calculated \
             here once more, and the command fails, and prints and writes nothing, where the \
             library has another, where its underlyings do not add up to a class, where it \
             charges the book otherwise than it tells, or where it refuses or takes a table \
             against its limits.",
        ),
    ],
    options: &[
        Choice::file(
            "-o",
            "FILE",
            "writes the book, a book like others. Not standard output, where the figures are \
             printed",
        ),
        written::CSV,
    ],
    operands: Some(Value::File("TABLE")),
    run,
};

/// The book of a table's deltas, and what is printed; or why there is neither.
fn written(given: &Given) -> Result<(Vec<u8>, String), String> {
    let options = decode(&given.bytes).unwrap_or_default();
    let answer = of_table(given)?;
    let groups = of_underlyings(&options)?;
    let report = hold(&options, &answer, &groups)?;
    let text = show::text(&answer, &groups, &report);
    Ok((answer.file, text))
}

/// Why a table is refused, if it is.
pub fn check(given: &Given) -> Result<(), String> {
    of_table(given).map(|_| ())
}

/// The options of a table as CSV text. One whose length is not that of its count has none.
pub fn unpack(given: Given) -> Result<String, String> {
    let Some(options) = decode(&given.bytes) else {
        check(&given)?;
        return Err("the length is not that of the count".into());
    };
    Ok(csv::write(&options))
}

fn run(args: &Args) -> Outcome {
    let [from] = args.files()?;
    let out = Out::beside(args, ["options", "the figures are printed"])?;
    if let Some(out) = &out {
        apart(out.to, &[from])?;
    }
    let given = read_options(from)?;
    let (file, mut text) = written(&given).map_err(|why| no(format!("{}: {why}", input(from))))?;
    of_options(from, &given.bytes);
    if let Some(out) = out {
        text += &length_line(out.to, out.write(&file)?);
    }
    print(&text)
}

#[cfg(test)]
mod tests {
    use super::*;
    use crate::load::option_table;

    /// An option on gold, and one on no currency.
    const GOOD: &str = "fx,0,bought call,none,100,5000,0,0,0,0\n";
    const BAD: &str = "fx,32,bought call,none,100,5000,0,0,0,0\n";

    fn text(lines: &str) -> String {
        format!("{}\n{lines}", csv::HEADER)
    }

    /// The bytes of lines of text, which must be accepted.
    fn packed(lines: &str) -> Result<Given, String> {
        let given = option_table(&text(lines)).map_err(|why| why.to_string())?;
        check(&given).map(|()| given)
    }

    #[test]
    fn text_is_packed_and_comes_back() {
        for lines in ["", GOOD, &GOOD.repeat(1_000)] {
            assert_eq!(unpack(packed(lines).unwrap()).unwrap(), text(lines));
        }
    }

    /// Catches a refused table that is taken, or that is told without its line.
    #[test]
    fn a_refused_table_names_its_line() {
        let lines = [GOOD, "\n", BAD].concat();
        let told = packed(&lines).unwrap_err();
        assert!(told.starts_with("line 4: refused 17: "), "{told}");
        assert!(told.ends_with("; group may be 0 to 31"), "{told}");
        let told = packed(&GOOD.repeat(1_001)).unwrap_err();
        assert!(told.starts_with("line 1002: refused 16: "), "{told}");
        // Unpacked they are as they were.
        let given = option_table(&text(&lines)).unwrap();
        assert_eq!(unpack(given).unwrap(), text(&[GOOD, BAD].concat()));
    }

    #[test]
    fn bytes_that_have_no_options_are_refused() {
        for (bytes, words) in [
            (
                vec![],
                "the file is empty; the text of a table begins with the line",
            ),
            (
                vec![1, 0],
                "the table counts 1 options, which have 20 bytes, and has 2",
            ),
        ] {
            let told = unpack(Given::of_bytes(bytes)).unwrap_err();
            assert!(told.starts_with("refused 16: "), "{told}");
            assert!(told.contains(&format!("\n{words}")), "{told}");
        }
    }
}
