//! `compare`: the proved library against the second calculation on random books.

mod about;
mod asked;
mod both;
mod both_laws;
#[cfg(test)]
mod both_readings;
mod case;
mod check;
mod comparisons;
#[cfg(test)]
mod count_readings;
mod cuts;
mod dearest;
mod dearest_laws;
#[cfg(test)]
mod dearest_readings;
mod dearest_sorts;
mod e4;
#[cfg(test)]
mod faulty;
mod floating;
mod issues;
mod ladders;
mod laws;
mod least;
#[cfg(test)]
mod mended;
#[cfg(test)]
mod misread;
#[cfg(test)]
mod misread_both;
#[cfg(test)]
mod misread_dearest;
#[cfg(test)]
mod misread_net;
#[cfg(test)]
mod misread_offset;
#[cfg(test)]
mod misread_shortest;
#[cfg(test)]
mod misread_small;
#[cfg(test)]
mod misread_tables;
mod net_joins;
mod net_laws;
#[cfg(test)]
mod net_readings;
mod net_sorts;
mod nets;
mod offset_laws;
#[cfg(test)]
mod offset_readings;
mod offset_sorts;
mod offsets;
mod options;
mod part_laws;
mod premises;
mod run;
mod shortest;
mod shortest_laws;
#[cfg(test)]
mod shortest_readings;
mod shortest_sorts;
mod shown;
mod shrink;
mod small_banks;
mod small_laws;
#[cfg(test)]
mod stand_ins;
mod table_cuts;
mod tables;
mod tally;
#[cfg(test)]
mod tests;
mod trade;
#[cfg(test)]
mod wrong_both;
#[cfg(test)]
mod wrong_counts;
#[cfg(test)]
mod wrong_dearest;
#[cfg(test)]
mod wrong_dearest_claims;
#[cfg(test)]
mod wrong_ladders;
#[cfg(test)]
mod wrong_net;
#[cfg(test)]
mod wrong_offset;
#[cfg(test)]
mod wrong_shortest;
#[cfg(test)]
mod wrong_small;
#[cfg(test)]
mod wrong_tables;

use crate::cli::{print, Args, Choice, Command, Outcome};
use run::Run;
use std::time::Instant;

pub const COMMAND: Command = Command {
    name: "compare",
    brief: "the library against a second calculation on random books",
    forms: &["[--seed S] [--count N] [--first K]"],
    about: about::ABOUT,
    options: &[
        Choice::number("--seed", "S", "the seed, 1 if not given"),
        Choice::number("--count", "N", "how many pairs, 20000 if not given"),
        Choice::number(
            "--first",
            "K",
            "the number of the first pair, 0 if not given",
        ),
    ],
    operands: None,
    run,
};

fn run(args: &Args) -> Outcome {
    let run = Run::asked(args)?;
    let start = Instant::now();
    let tally = run.outcome()?;
    let seconds = start.elapsed().as_secs_f64();
    let (seed, count) = (run.seed, run.count);
    let (library, other) = (run.library.name(), run.other.name());
    print(&format!(
        "seed {seed}: {count} pairs equal in {seconds:.1} s, by {library} and by {other}\n{tally}"
    ))
}
