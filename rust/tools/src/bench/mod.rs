//! `bench`: the proved library's speed beside Rust, C and bare passes over the bytes.

mod both;
mod cases;
mod dearest;
mod expected;
#[cfg(test)]
mod fake;
mod floors;
mod issues;
mod least_trade;
mod legs;
mod options;
mod refusals;
mod show;
mod sides;
#[cfg(test)]
mod tests;
mod timed;
mod trades;
mod work;

use crate::cli::{print, usage, Args, Choice, Command, Failure, Outcome, Part};
use crate::progress::Progress;
use show::Table;
use sides::CALLS;
use std::time::Instant;
use timed::Clock;

pub const COMMAND: Command = Command {
    name: "bench",
    brief: "the library's speed beside plain Rust and C",
    forms: &["[--rounds N]"],
    about: &[
        Part::Text(
            "Times thirteen calls, in one run and taking turns, and prints a table for each: \
             medians of N rounds in nanoseconds, and ratios, proved / other. Below 1 the \
             proved library is faster.",
        ),
        Part::Words(&[
            ("proved", "the proved library"),
            ("Rust", "the same call in plain Rust"),
            (
                "C",
                "the charge call in C by hand for x86-64, where there is a compiler for it",
            ),
            (
                "words",
                "a floor: a bare pass that sums the book's bytes as 64-bit words",
            ),
            (
                "copy",
                "a floor: a copy of the bytes that a call reads that writes a book of them",
            ),
        ]),
        Part::Text(
            "The books lie in memory: without rows, of one class, of all classes, and refused \
             at the last row; those of the small bank have foreign exchange and commodities \
             alone, those of netting interest rows of so many issues, and those of offsetting \
             swap legs that all pair off with one a few rows on, or that fit none: their \
             amounts are all different, they are all on one side, or their amounts are equal \
             and their terms apart. Those of both in one call are legs of so many issues, \
             which all pair off when they are netted, or fit none. Refusals are shown of books \
             of all classes whose last row is bad, and of accepted ones, of which nothing is \
             written. The dearest book takes no book: it is written for so many rows and a \
             largest amount, and the floor copies it. Options are of all classes in any order, \
             and the floor copies their table. The least trade is looked for in books of one \
             currency, in one line of all, under limits that are met at once, midway (some \
             hundred thousands), by one amount alone and never, and missed by one mil with \
             every amount; Rust tries every amount in order. Charges and interest ladders are \
             under document 01's table, and in one line more under another. The line below \
             netting's tells what one comparison takes where all rows are of different issues: \
             the time of the call, by the comparisons. A join is of two books with half the \
             rows each; ladders are of each group in turn. Before the timing every result is \
             compared with that of the second calculation, and after each measurement the last \
             one. Outputs are not cleared between calls.",
        ),
    ],
    options: &[Choice::number(
        "--rounds",
        "N",
        "how many rounds, 201 if not given",
    )],
    operands: None,
    run,
};

/// The tables of a run with so many rounds.
fn tables<'a>(
    cases: &'a [cases::Case],
    rounds: u64,
    clock: Clock,
) -> Result<Vec<Table<'a>>, Failure> {
    let tables = CALLS.iter().map(|call| Table::new(call, cases));
    let mut tables = tables.collect::<Result<Vec<_>, _>>()?;
    tables
        .iter_mut()
        .try_for_each(|table| table.settle(clock))?;
    let mut progress = Progress::new(rounds);
    for round in 0..rounds {
        tables.iter_mut().try_for_each(|table| table.round(clock))?;
        progress.done(round + 1);
    }
    progress.clear();
    Ok(tables)
}

fn run(args: &Args) -> Outcome {
    let [] = args.files()?;
    let rounds = args.number("--rounds")?.unwrap_or(201);
    if rounds == 0 {
        return Err(usage("bench: --rounds must not be 0"));
    }
    let (cases, start) = (cases::cases(), Instant::now());
    let tables = tables(&cases, rounds, &|| start.elapsed())?;
    let texts: Vec<String> = tables.iter().map(Table::text).collect();
    print(&format!(
        "medians of {rounds} rounds\n\n{}",
        texts.join("\n")
    ))
}
