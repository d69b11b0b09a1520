//! `least-trade`: the least amount in a band that brings a currency's charge within a limit.

mod answered;
mod ask;
mod asked;
mod curve;
mod doubt;
mod limit;
mod show;

use crate::cli::{no, Args, Choice, Command, Outcome, Part, Value};
use crate::files::{input, print};
use crate::load::{read_noted, Given};
use crate::table::Loaded;
use market_risk::Table;

pub use answered::Answered;
pub use asked::Asked;

pub const COMMAND: Command = Command {
    name: "least-trade",
    brief: "the least amount in a band that brings a currency's charge within a limit",
    forms: &[
        "BOOK --currency G --band B --side long|short --limit X [--table FILE]",
        "BOOK --currency G --days D --coupon C --side long|short --limit X [--table FILE]",
    ],
    about: &[
        Part::Text(
            "Prints the least amount, 0 to 1,000,000 thousands, that added to one side of one \
             band of currency G brings the currency's interest general charge to at most X, or \
             that no such amount does. The amount is added to what the book's rows sum to in \
             the band, not as a row. With rows in all three zones the charge may fall and rise \
             again as the amount grows: a larger amount need not be within the limit too.",
        ),
        Part::Text(
            "Below the amount stand the charge before, with the amount, and with one thousand \
             less, which is over the limit; where no amount is within it, the charge with \
             1,000,000 and the lowest of all. Then come the ladder before, and the ladder with \
             the amount, as market-risk ladder draws them.",
        ),
        Part::Text(
            "A currency over 31 is refused with 10, a band over 14 with 21, and then the book, \
             each told in words with exit status 1. That no amount is within the limit is an \
             answer, with exit status 0.",
        ),
        Part::Text(
            "The amount and the ladder before are the proved library's. The charges and the \
             ladder with the amount are calculated here. The command fails, and prints \
             nothing, where the ladder before is another by the rows, where the charge with \
             the library's amount is over the limit or with a smaller one is within it, or \
             where the library refuses or takes what it should not. Of the smaller amounts, or \
             of all where there is none, it looks at both ends, at each place where the charge \
             may turn, and at some thousand others.",
        ),
    ],
    options: &[
        Choice::number("--currency", "G", "the currency, 0 to 31"),
        Choice::number(
            "--band",
            "B",
            "the band, 0 to 14, as market-risk ladder numbers them",
        ),
        Choice::number(
            "--days",
            "D",
            "or the band in which an instrument of D days, 0 to 36,000,",
        ),
        Choice::number(
            "--coupon",
            "C",
            "and a coupon of C basis points, 0 to 10,000, stands",
        ),
        Choice::word(
            "--side",
            &["long", "short"],
            "the side that is added to: long or short",
        ),
        Choice::text(
            "--limit",
            "X",
            "the highest charge, in currency units as charges are printed, but without commas: \
             1000, or with a point and one to three decimals, 994.5; a mil is 0.001",
        ),
        Choice::file(
            "--table",
            "FILE",
            "charges under this table, 36 bytes or text as market-risk table --help tells, in \
             the place of document 01's; where it is another, it is shown above the rest. A \
             refused table is told with the conditions that it breaks, and the exit status is \
             1",
        ),
    ],
    operands: Some(Value::File("BOOK")),
    run,
};

/// What is printed, or why nothing is.
fn least(given: &Given, table: &Table, asked: &Asked) -> Result<String, String> {
    show::text(&Answered::new(given, table, asked)?, table)
}

fn run(args: &Args) -> Outcome {
    let [path] = args.files()?;
    let asked = Asked::new(&COMMAND, args)?;
    let loaded = Loaded::new(args, path)?;
    let text = least(&read_noted(path)?, &loaded.table, &asked);
    let text = text.map_err(|why| no(format!("{}: {why}", input(path))))?;
    print(&(loaded.note() + &text))
}
